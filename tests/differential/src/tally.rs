//! How often each answer, each refusal, each case and each combination came up.

use crate::alike::Alike;
use crate::alike_cases::{place_of, ALIKE_CASES, WAYS};
use crate::cases::{Case, Seen, CASES};
use crate::charge_cases::{CHARGE_CASES, MOVED_CHARGE_CASES};
use crate::charge_seen::Billed;
use crate::combined::Combined;
use crate::hole_cases::HOLE_CASES;
use crate::joined_cases::JOINED_CASES;
use crate::joined_seen::Asked;
use crate::profile_cases::PROFILE_CASES;
use crate::shift_cases::SHIFT_CASES;
use model::charge::BAD_LINES;
use model::moved::Move;
use model::terms::{REFUSALS, REFUSAL_PLACES};
use panel::Numbers;

/// The answers by their numbers.
const NAMES: [&str; 9] = [
    "done",
    "yes",
    "no",
    "contradiction",
    "spans",
    "end",
    "refused",
    "total",
    "open",
];
const REFUSED: u32 = 6;

#[derive(Default)]
pub struct Tally {
    pub streams: u64,
    pub calls: u64,
    /// Calls with a null pointer, whose length is 0.
    pub nulls: u64,
    answers: [u64; NAMES.len()],
    refusals: [u64; REFUSAL_PLACES],
    cases: Vec<u64>,
    joined: Vec<u64>,
    charges: Vec<u64>,
    /// By the way that a section was moved.
    alike: [[u64; ALIKE_CASES.len()]; WAYS.len()],
    moved_charges: [[u64; MOVED_CHARGE_CASES.len()]; WAYS.len()],
    pub combined: Combined,
}

fn all_cases() -> impl Iterator<Item = &'static Case> {
    let of_settings = HOLE_CASES.iter().chain(&PROFILE_CASES);
    CASES.iter().chain(of_settings).chain(&SHIFT_CASES)
}

/// Names with their numbers, parted by commas.
pub fn listed<N: std::fmt::Display>(pairs: impl Iterator<Item = (N, u64)>) -> String {
    let pairs: Vec<_> = pairs.map(|(name, n)| format!("{name} {n}")).collect();
    pairs.join(", ")
}

impl Tally {
    pub fn new() -> Tally {
        Tally {
            cases: vec![0; all_cases().count()],
            joined: vec![0; JOINED_CASES.len()],
            charges: vec![0; CHARGE_CASES.len()],
            ..Tally::default()
        }
    }

    pub fn count(&mut self, (number, value): Numbers) {
        self.calls += 1;
        self.answers[number as usize] += 1;
        if number == REFUSED {
            self.refusals[value as usize] += 1;
        }
    }

    pub fn see(&mut self, seen: &Seen) {
        for ((_, fits), count) in all_cases().zip(&mut self.cases) {
            *count += u64::from(fits(seen));
        }
    }

    pub fn see_question(&mut self, asked: &Asked) {
        for ((_, fits), count) in JOINED_CASES.iter().zip(&mut self.joined) {
            *count += u64::from(fits(asked));
        }
    }

    pub fn see_charge(&mut self, billed: &Billed) {
        for ((_, fits), count) in CHARGE_CASES.iter().zip(&mut self.charges) {
            *count += u64::from(fits(billed));
        }
    }

    /// A charge that was asked for with a section as it is and moved.
    pub fn see_moved_charge(&mut self, way: Move, billed: &Billed) {
        let Some(way) = place_of(way) else {
            return;
        };
        let counts = &mut self.moved_charges[way];
        for ((_, fits), count) in MOVED_CHARGE_CASES.iter().zip(counts) {
            *count += u64::from(fits(billed));
        }
    }

    /// A question that was asked with a section as it is and moved.
    pub fn see_alike(&mut self, alike: &Alike) {
        let Some(way) = place_of(alike.way) else {
            return;
        };
        for ((_, fits), count) in ALIKE_CASES.iter().zip(&mut self.alike[way]) {
            *count += u64::from(fits(alike));
        }
    }

    /// The refusals in the order in which they are tested; the last is a charge's alone.
    fn refusals(&self) -> impl Iterator<Item = (String, u64)> + '_ {
        let counted = |number: u32| (format!("{number}:"), self.refusals[number as usize]);
        REFUSALS.into_iter().chain([BAD_LINES]).map(counted)
    }

    fn cases(&self) -> impl Iterator<Item = (String, u64)> + '_ {
        let names = all_cases().map(|(name, _)| name);
        let joined = JOINED_CASES.iter().map(|(name, _)| name);
        let charges = CHARGE_CASES.iter().map(|(name, _)| name);
        let counts = self.cases.iter().chain(&self.joined).chain(&self.charges);
        let names = names.chain(joined).chain(charges);
        let names = names.map(|name| format!("{name}:"));
        names.zip(counts.copied()).chain(self.moved())
    }

    /// The cases of what was asked twice, for each way.
    fn moved(&self) -> impl Iterator<Item = (String, u64)> + '_ {
        let alike = ALIKE_CASES.iter().map(|(name, _)| name);
        let charges = MOVED_CHARGE_CASES.iter().map(|(name, _)| name);
        let names: Vec<_> = alike.chain(charges).collect();
        let counts = self.alike.iter().zip(&self.moved_charges);
        let ways = WAYS.iter().zip(counts);
        ways.flat_map(move |(way, (alike, charges))| {
            let named = names.iter().map(|name| format!("{name}, {way}:"));
            let counts = alike.iter().chain(charges).copied();
            named.zip(counts).collect::<Vec<_>>()
        })
    }

    pub fn print(&self) {
        let (streams, calls, nulls) = (self.streams, self.calls, self.nulls);
        println!("{streams} streams, {calls} calls, {nulls} with a null pointer");
        println!("answers: {}", listed(NAMES.into_iter().zip(self.answers)));
        println!("refusals: {}", listed(self.refusals()));
        println!("cases: {}", listed(self.cases()));
        self.combined.print();
    }

    /// The refusals and combinations that came up less often than that, and the cases that never
    /// did.
    pub fn rare(&self, least: u64) -> String {
        let counted = self.refusals().chain(self.combined.counts());
        let seldom = counted.filter(|&(_, n)| n < least);
        let never = self.cases().filter(|&(_, n)| n == 0);
        listed(seldom.chain(never))
    }
}
