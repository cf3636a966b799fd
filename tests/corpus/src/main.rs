//! Writes stored test inputs of the program and what it has to print.
//! `corpus wells FOLDER`: a hundred wells with points, fifty with points and stretches behind them,
//! thirty whose rule lists name a counting, thirty that are holes with two ends, thirty pads of
//! several wells, thirty whose sections are printed, and thirty whose cable zero moves;
//! `corpus limits FOLDER`: inputs at the size limit.

mod limits;
mod well;

use dice::Dice;
use model::listing::{listing, MAX_INPUT};
use std::path::Path;
use well::{Size, Well};

const WELLS: u64 = 300;
/// From this well on a caliper gives stretches.
const CALIPER: u64 = 100;
/// From this well on rule lists name a counting, and there are two sections at least.
const COUNTINGS: u64 = 150;
/// From this well on sections are drilled in a hole with two ends.
const HOLES: u64 = 180;
/// From this well on several wells share a section, and every second pad is drilled without a hole.
const PADS: u64 = 210;
/// From this well on most sections switch the print profile on, and every third well is drilled in
/// a hole.
const PROFILES: u64 = 240;
/// From this well on the cable zero moves. Every second well is drilled in a hole, every third is
/// printed, and every fifth is a pad.
const SHIFTS: u64 = 270;

/// Whether sections are drilled in a hole with two ends.
fn holes(number: u64) -> bool {
    match number {
        ..HOLES => false,
        HOLES..PADS => true,
        PADS..PROFILES => number.is_multiple_of(2),
        PROFILES..SHIFTS => number.is_multiple_of(3),
        _ => number.is_multiple_of(2),
    }
}

/// Whether several wells share a section.
fn pads(number: u64) -> bool {
    match number {
        SHIFTS.. => number.is_multiple_of(5),
        _ => (PADS..PROFILES).contains(&number),
    }
}

/// Whether sections switch the print profile on.
fn profiles(number: u64) -> bool {
    match number {
        SHIFTS.. => number.is_multiple_of(3),
        _ => number >= PROFILES,
    }
}

/// From a few marks to full lists.
fn size(number: u64) -> Size {
    let mut dice = Dice::new(1_000 + number);
    let large = number % 10;
    let countings = number >= COUNTINGS;
    let size = Size {
        rules: 6 + 12 * large,
        marks: 5 + 25 * large,
        items: dice.pick(&[1, 3, 5, 16]),
        step: dice.pick(&[3, 60, 400, 1_500]),
        deeper: 38,
        strict: dice.percent(25),
        sections: 1
            + u64::from(number % 7 == 3)
            + 6 * u64::from(number == 99)
            + u64::from(countings),
        broken_end: number == 42,
        stretches: match number < CALIPER {
            true => 0,
            false => dice.pick(&[20, 50, 80]),
        },
        countings,
        holes: holes(number),
        wells: 0,
        profiles: profiles(number),
        shifts: number >= SHIFTS,
    };
    match pads(number) {
        false => with_limits(large, size),
        true => with_limits(large, pad(&mut dice, size)),
    }
}

/// Each ninth of ten wells goes deeper, and each tenth goes over its limits.
fn with_limits(large: u64, size: Size) -> Size {
    match large {
        8 => Size { deeper: 60, ..size },
        9 => Size {
            rules: 140,
            marks: 320,
            items: 16,
            deeper: 22,
            ..size
        },
        _ => size,
    }
}

/// The same with the items shared out to several wells, and rules by which gas in a wet place makes
/// some of them contradictory on most pads.
fn pad(dice: &mut Dice, size: Size) -> Size {
    Size {
        rules: size.rules.max(18),
        items: 16,
        strict: dice.percent(80),
        wells: dice.pick(&[2, 4, 4, 8]),
        ..size
    }
}

fn write(folder: &Path, name: &str, records: &[u8]) -> std::io::Result<()> {
    std::fs::write(folder.join(format!("{name}.records")), records)?;
    std::fs::write(folder.join(format!("{name}.listing")), listing(records))
}

fn wells(folder: &Path) -> std::io::Result<()> {
    (0..WELLS).try_for_each(|number| {
        let records = Well::new(number, size(number)).stream();
        assert!(records.len() <= MAX_INPUT, "well {number} is too long");
        write(folder, &format!("{number:02}"), &records)
    })
}

fn limits(folder: &Path) -> std::io::Result<()> {
    write(folder, "empty", &[])?;
    let full = limits::full();
    write(folder, "full", &full)?;
    write(folder, "over", &[&full[..], &[0]].concat())
}

fn main() -> std::io::Result<()> {
    let arguments: Vec<String> = std::env::args().collect();
    let [_, what, folder] = &arguments[..] else {
        panic!("say wells or limits, and a folder");
    };
    match what.as_str() {
        "wells" => wells(Path::new(folder)),
        "limits" => limits(Path::new(folder)),
        _ => panic!("say wells or limits"),
    }
}
