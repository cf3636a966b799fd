//! Runs random streams of calls through the archive and the model and compares them.
//! Arguments: seconds to run (default 100), the first seed (default 1) and how often each refusal
//! and each combination has to come up at least (default 1).

mod alike;
mod alike_cases;
mod cases;
mod charge_calls;
mod charge_cases;
mod charge_seen;
mod charges;
mod combined;
mod damage;
mod distance;
mod ends;
mod hole_cases;
mod hole_seen;
mod holes;
mod joined_cases;
mod joined_seen;
mod plan;
mod plans;
mod profile_cases;
mod profile_seen;
mod profiles;
mod shift_cases;
mod shift_seen;
mod shifts;
mod source;
mod stream;
mod tally;
mod wells;

use std::process::ExitCode;
use std::time::{Duration, Instant};
use stream::Stream;
use tally::Tally;

fn argument(place: usize, default: u64) -> u64 {
    let text = std::env::args().nth(place);
    text.map_or(default, |text| text.parse().expect("a whole number"))
}

fn main() -> ExitCode {
    let (seconds, first_seed, least) = (argument(1, 100), argument(2, 1), argument(3, 1));
    let (start, limit) = (Instant::now(), Duration::from_secs(seconds));
    let mut tally = Tally::new();
    let seeds = (first_seed..).take_while(|_| start.elapsed() < limit);
    for seed in seeds {
        if let Err(difference) = Stream::new(seed).run(&mut tally) {
            println!("seed {seed}, {difference}");
            return ExitCode::FAILURE;
        }
    }
    tally.print();
    let rare = tally.rare(least);
    if !rare.is_empty() && seconds >= 10 {
        println!("too rare: {rare}");
        return ExitCode::FAILURE;
    }
    ExitCode::SUCCESS
}
