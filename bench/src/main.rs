//! Measures the derivation on generated full sections, against the naive way. SET is points or stretches.
//!
//! bench                                            times of all operations on both sets
//! bench blocks SET FILE                            writes the loaded blocks
//! bench count SET FILE OPERATION ROUNDS SECTIONS   does one operation on the blocks of FILE and nothing else

mod case;
mod clock;
mod naive;
mod report;
mod section;

use std::env;
use std::fs;
use std::process::ExitCode;

use case::{Bench, Case, Operation};
use model::block::SIZE;
use section::Set;

fn loaded(set: Set) -> Vec<Case> {
    let mut bench = Bench::new();
    set.sections()
        .map(|section| Case::load(section, &mut bench))
        .collect()
}

fn write_blocks(set: Set, file: &str) {
    let blocks: Vec<u8> = loaded(set).iter().flat_map(Case::bytes).collect();
    fs::write(file, blocks).expect("the file of blocks");
}

fn read_blocks(set: Set, file: &str, count: usize) -> Vec<Case> {
    let bytes = fs::read(file).expect("the file of blocks");
    let blocks = bytes.chunks_exact(2 * SIZE);
    let cases = set.sections().zip(blocks).take(count);
    cases
        .map(|(section, blocks)| Case::from_bytes(section, blocks))
        .collect()
}

/// Two runs that differ in `rounds` alone differ by that many operations on each section.
fn count(cases: &[Case], operation: Operation, rounds: usize) {
    let mut bench = Bench::new();
    for case in cases.iter().cycle().take(cases.len() * rounds) {
        case.prepare(operation, &mut bench);
        case.run(operation, &mut bench);
    }
}

fn dispatch(words: &[&str]) -> Option<()> {
    match words {
        [] => report::report(&Set::ALL.map(|set| (set.name(), loaded(set)))),
        ["blocks", set, file] => write_blocks(Set::from_name(set)?, file),
        ["count", set, file, operation, rounds, sections] => {
            let operation = Operation::from_name(operation)?;
            let cases = read_blocks(Set::from_name(set)?, file, sections.parse().ok()?);
            count(&cases, operation, rounds.parse().ok()?);
        }
        _ => return None,
    }
    Some(())
}

fn main() -> ExitCode {
    let words: Vec<String> = env::args().skip(1).collect();
    let words: Vec<&str> = words.iter().map(String::as_str).collect();
    if dispatch(&words).is_none() {
        eprintln!("usage: bench [blocks SET FILE | count SET FILE OPERATION ROUNDS SECTIONS]");
        return ExitCode::FAILURE;
    }
    ExitCode::SUCCESS
}
