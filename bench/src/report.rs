//! Times of all operations over all sections, in one run, with the tables compared.

use std::mem::discriminant;
use std::time::Duration;

use crate::case::{Bench, Case, Operation};
use crate::clock;
use crate::naive::Tables;
use model::held::Held;
use model::service::Memory;
use model::terms::{Answer, Fact, Rule};
use panel::Numbers;

/// Each time is the best of this many.
const ROUNDS: usize = 8;

/// Times of one section in the order of `Operation::ALL`, and what was seen on the way.
struct Measured {
    best: [Duration; Operation::ALL.len()],
    passes: usize,
    /// An item has NEVER.
    contradiction: bool,
    /// One that is joined to what the question is about has it.
    told: bool,
}

fn timed(case: &Case, operation: Operation, bench: &mut Bench) -> (Duration, Numbers) {
    case.prepare(operation, bench);
    let start = clock::now();
    let answer = case.run(operation, bench);
    (clock::now() - start, answer)
}

/// What the operation has to answer: the question is about a mark, which is yes unless an item joined to it has NEVER.
fn expected(operation: Operation, tables: &Tables, asked: Fact) -> Answer {
    match operation {
        Operation::Naive | Operation::Put => Answer::Done,
        Operation::Load => Answer::End,
        _ => match tables.contradiction(asked) {
            Some(item) => Answer::Contradiction(item as u32),
            None => Answer::Yes,
        },
    }
}

fn same_tables(naive: &Tables, memory: &Memory) -> bool {
    naive.labels == memory.labels && naive.links == memory.links
}

/// All operations once, in the order of these places.
fn round(case: &Case, bench: &mut Bench, order: &[usize], best: &mut [Duration]) {
    for &place in order {
        let operation = Operation::ALL[place];
        let (time, answer) = timed(case, operation, bench);
        assert_eq!(
            answer,
            expected(operation, &bench.naive, case.asked()).numbers()
        );
        best[place] = time.min(best[place]);
    }
    let same = same_tables(&bench.naive, &bench.memory);
    assert!(same, "the tables differ");
}

fn measure(case: &Case, bench: &mut Bench) -> Measured {
    let mut best = [Duration::MAX; Operation::ALL.len()];
    let mut order: Vec<usize> = (0..best.len()).collect();
    for _ in 0..ROUNDS {
        round(case, bench, &order, &mut best);
        // Each second round goes backwards, so that no operation always runs behind the same one.
        order.reverse();
    }
    Measured {
        best,
        passes: bench.naive.derive(&case.section),
        contradiction: (0..16).any(|item| bench.naive.has_never(item)),
        told: bench.naive.contradiction(case.asked()).is_some(),
    }
}

/// The section without the rules of one kind derives less.
fn kind_derives(section: &Held, kind: &Rule, all: &Tables) -> bool {
    let other = |rule: &&Rule| discriminant(*rule) != discriminant(kind);
    let rest = Held {
        rules: section.rules.iter().filter(other).copied().collect(),
        ..section.clone()
    };
    let mut tables = Tables::new();
    tables.derive(&rest);
    tables != *all
}

/// Rules of all four kinds have a part in what the section derives.
fn check_kinds(section: &Held) {
    let mut all = Tables::new();
    all.derive(section);
    let derives = |rule: &Rule| kind_derives(section, rule, &all);
    let mut kinds: Vec<Rule> = Vec::new();
    for rule in &section.rules {
        if kinds
            .iter()
            .all(|kind| discriminant(kind) != discriminant(rule))
        {
            kinds.push(*rule);
        }
    }
    assert!(
        kinds.len() == 4 && kinds.iter().all(derives),
        "a kind of rules derives nothing"
    );
}

/// Least, median and greatest.
fn spread<T: PartialOrd + Copy>(values: impl Iterator<Item = T>) -> (T, T, T) {
    let mut sorted: Vec<T> = values.collect();
    sorted.sort_by(|a, b| a.partial_cmp(b).expect("numbers"));
    (
        sorted[0],
        sorted[sorted.len() / 2],
        sorted[sorted.len() - 1],
    )
}

fn micros(measured: &Measured, place: usize) -> f64 {
    measured.best[place].as_nanos() as f64 / 1_000.0
}

fn stretches_of(section: &Held) -> usize {
    section.marks.iter().filter(|mark| !mark.is_point()).count()
}

/// What the sections of one set are like.
fn print_sections(name: &str, cases: &[Case], all: &[Measured]) {
    let contradictions = all.iter().filter(|one| one.contradiction).count();
    let told = all.iter().filter(|one| one.told).count();
    let (_, stretches, _) = spread(cases.iter().map(|case| stretches_of(&case.section)));
    let (fewest, depths, most_depths) = spread(cases.iter().map(|case| case.section.ends().len()));
    let (least, median, most) = spread(all.iter().map(|one| one.passes));
    println!(
        "{name}: {} sections, {contradictions} with a contradiction, {told} of them joined to the question",
        all.len()
    );
    println!("    stretches among 256 marks: median {stretches}");
    println!("    marked depths: median {depths}, from {fewest} to {most_depths}");
    println!("    naive passes: median {median}, from {least} to {most}");
}

/// One line with least, median and greatest of each set.
fn print_line<'a>(name: &str, sets: &'a [Vec<Measured>], value: impl Fn(&'a Measured) -> f64) {
    print!("{name:<20}");
    for all in sets {
        let (least, median, most) = spread(all.iter().map(&value));
        print!("{median:>12.1}{least:>10.1}{most:>10.1}");
    }
    println!();
}

fn print_times(names: &[&str], sets: &[Vec<Measured>]) {
    println!("processor time in microseconds, best of {ROUNDS}");
    print!("{:<20}", "");
    names.iter().for_each(|name| print!("{name:>32}"));
    print!("\n{:<20}", "");
    names
        .iter()
        .for_each(|_| print!("{:>12}{:>10}{:>10}", "median", "least", "most"));
    println!();
    for (place, operation) in Operation::ALL.into_iter().enumerate() {
        print_line(operation.name(), sets, |one| micros(one, place));
    }
    print_line("naive / question", sets, |one| {
        micros(one, 0) / micros(one, 1)
    });
}

fn measure_set(cases: &[Case]) -> Vec<Measured> {
    let mut bench = Bench::new();
    for case in cases {
        check_kinds(&case.section);
    }
    cases.iter().map(|case| measure(case, &mut bench)).collect()
}

/// All sets, by their names.
pub fn report(sets: &[(&str, Vec<Case>)]) {
    let measured: Vec<_> = sets.iter().map(|(_, cases)| measure_set(cases)).collect();
    for ((name, cases), all) in sets.iter().zip(&measured) {
        print_sections(name, cases, all);
    }
    let names: Vec<&str> = sets.iter().map(|(name, _)| *name).collect();
    print_times(&names, &measured);
}
