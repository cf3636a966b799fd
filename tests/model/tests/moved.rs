//! Random sections moved along the line, and with the line reversed: every answer goes along. Where
//! a section is shifted by c, the answer at d + c is the one that was at d; where it is mirrored,
//! the answer at -d.

use dice::Dice;
use model::block::encode;
use model::charge::{charge, numbers, Charge, Line, MAX_PRICE};
use model::depths::{Depths, NO_BOTTOM, NO_TOP};
use model::derive::Collection;
use model::frame::bytes;
use model::held::Held;
use model::moved::Move;
use model::service::{record, Lent, Memory};
use model::short::{has, link, query, spans, whole, within};
use model::terms::*;

const ITEMS_USED: [u8; 4] = [0, 1, 6, 15];
const LABELS_USED: [u8; 6] = [EVERY, 1, 2, 3, 4, NEVER];
const KINDS_USED: [u8; 2] = [0, 7];

fn label(dice: &mut Dice, first: i64) -> u8 {
    dice.between(first, 4) as u8
}

fn operator(dice: &mut Dice) -> Operator {
    let near = within(dice.between(1, 9) as u32);
    let far = whole(dice.between(2, 5) as u8);
    dice.pick(&[near, near, far])
}

fn rule(dice: &mut Dice) -> Rule {
    let (a, b, usual) = (label(dice, 0), label(dice, 0), label(dice, 1));
    let c = dice.pick(&[usual, usual, usual, usual, usual, NEVER]);
    let (r, s) = (dice.pick(&KINDS_USED), dice.pick(&KINDS_USED));
    let op = operator(dice);
    match dice.below(6) {
        0 | 1 => Rule::Label { op, a, b: c },
        2 => Rule::Both { a, b, c },
        3 | 4 => Rule::LinkRule { op, r, s },
        _ => Rule::Via { r, a, b: c },
    }
}

fn mark(dice: &mut Dice) -> Mark {
    let mut item = || dice.pick(&ITEMS_USED);
    let (item, to) = (item(), item());
    let fact = match dice.percent(30) {
        true => link(item, dice.pick(&KINDS_USED), to),
        false => has(item, label(dice, 1)),
    };
    let top = dice.between(-9, 12) as i32;
    let bottom = top + dice.pick(&[0, 0, 1, 6]);
    Mark { fact, top, bottom }
}

/// A few rules and marks around zero, with either counting, a hole or none, the profile on or off.
fn section(dice: &mut Dice) -> Held {
    let around = Hole {
        top: -12,
        bottom: 20,
    };
    let tight = Hole { top: -4, bottom: 9 };
    let mut held = Held {
        counting: dice.pick(&[Counting::Old, Counting::New]),
        hole: dice.pick(&[None, None, Some(around), Some(tight)]),
        profile: dice.percent(30),
        ..Held::default()
    };
    let (rules, marks) = (dice.between(1, 8), dice.pick(&[0, 4, 8, 16]));
    (0..rules).for_each(|_| held.offer(&Record::Rule(rule(dice))));
    (0..marks).for_each(|_| held.offer(&Record::Put(mark(dice))));
    held
}

/// A small shift, or one that brings the section to an end of the range; with nothing to move, any.
fn some_shift(dice: &mut Dice, held: &Held) -> i32 {
    let (near, ends) = (dice.between(-30, 30) as i32, held.movable());
    match ends.first().zip(ends.last()) {
        None => dice.pick(&[i32::MIN, i32::MAX, near]),
        Some((least, greatest)) => {
            let to_ends = [SHALLOWEST - least, DEEPEST - greatest];
            dice.pick(&[near, near, to_ends[0], to_ends[1], 1_000])
        }
    }
}

/// The section itself, or the same at an end of the part of the range that can be mirrored.
fn to_mirror(dice: &mut Dice, held: Held) -> Held {
    let ends = held.movable();
    let up = ends.first().map_or(0, |least| SHALLOWEST - least);
    let down = ends.last().map_or(0, |greatest| -SHALLOWEST - greatest);
    let by = dice.pick(&[0, 0, up, down]);
    held.shifted(by).expect("a section inside the range")
}

/// A section, how it is moved, and where to.
fn moved(seed: u64, mirror: bool) -> (Held, Move, Held) {
    let mut dice = Dice::new(seed);
    let held = section(&mut dice);
    let (held, way) = match mirror {
        true => (to_mirror(&mut dice, held), Move::Mirror),
        false => {
            let by = some_shift(&mut dice, &held);
            (held, Move::Shift(by))
        }
    };
    let to = held.moved(way).expect("a move inside the range");
    assert!(held.reachable() && to.reachable(), "seed {seed}: {held:?}");
    (held, way, to)
}

/// All labels and links of the marked items and of one that nothing is marked of.
fn facts() -> Vec<Fact> {
    let items = [&ITEMS_USED[..], &[3]].concat();
    let labels = |&item: &u8| LABELS_USED.map(|label| has(item, label));
    let from = |from: u8| move |&to: &u8| KINDS_USED.map(|kind| link(from, kind, to));
    let links = items
        .iter()
        .flat_map(|&item| items.iter().flat_map(from(item)));
    items.iter().flat_map(labels).chain(links).collect()
}

/// A set of depths on the other line, whose runs are those of this one.
fn moved_set(way: Move, set: &Depths) -> Depths {
    let end = |depth: i64| match (way, depth) {
        (Move::Mirror, NO_TOP) => NO_BOTTOM,
        (Move::Mirror, NO_BOTTOM) => NO_TOP,
        (Move::Shift(_), NO_TOP | NO_BOTTOM) => depth,
        _ => way.depth(depth).expect("an end near the marks"),
    };
    let run = |&(top, bottom): &(i64, i64)| match way {
        Move::Shift(_) => Depths::run(end(top), end(bottom)),
        Move::Mirror => Depths::run(end(bottom), end(top)),
    };
    let runs = set.runs().iter().map(run);
    runs.fold(Depths::default(), |all, run| all.union(&run))
}

/// The item of a contradiction, or else all depths at which the answer is yes.
fn said(found: &Collection, asked: Fact) -> Result<Depths, u8> {
    let depths = found.of(asked).clone();
    found.contradiction(asked).map_or(Ok(depths), Err)
}

/// Contradictions, sets of several runs, and runs without an end.
fn sorts(said: &Result<Depths, u8>) -> [u64; 3] {
    let runs = said.as_ref().map_or(&[][..], Depths::runs);
    let endless = |&(top, bottom): &(i64, i64)| top == NO_TOP || bottom == NO_BOTTOM;
    [said.is_err(), runs.len() > 1, runs.iter().any(endless)].map(u64::from)
}

/// Sets of depths: every label and link of every item, in many sections.
#[test]
fn the_collection_goes_along() {
    let mut seen = [0; 3];
    for (seed, mirror) in (0..1_000).flat_map(|seed| [(seed, false), (seed, true)]) {
        let (held, way, to) = moved(seed, mirror);
        let (before, after) = (Collection::least(&held), Collection::least(&to));
        for fact in facts() {
            let here = said(&before, fact);
            (0..3).for_each(|sort| seen[sort] += sorts(&here)[sort]);
            let wanted = here.map(|set| moved_set(way, &set));
            assert_eq!(said(&after, fact), wanted, "seed {seed}, {way:?}: {fact:?}");
        }
    }
    assert!(seen.iter().all(|&count| count > 1_000), "{seen:?}");
}

/// What was compared: answers to questions about labels and links, and pairs of spans.
#[derive(Default, Debug)]
struct Compared {
    yes: [u64; 2],
    no: [u64; 2],
    contradictions: [u64; 2],
    no_top: u64,
    no_bottom: u64,
    several: u64,
    at_far_ends: u64,
}

impl Compared {
    fn count(&mut self, question: Record, answer: Answer, numbers: &[i32]) {
        let sort = match question {
            Record::Query(fact, _) => usize::from(fact.is_link()),
            _ => 0,
        };
        match answer {
            Answer::Yes => self.yes[sort] += 1,
            Answer::No => self.no[sort] += 1,
            Answer::Contradiction(_) => self.contradictions[sort] += 1,
            _ => {}
        }
        let far = |depth: i64| depth.unsigned_abs() > 1 << 62;
        let asked_far = matches!(question, Record::Query(_, depth) if far(depth));
        self.at_far_ends += u64::from(asked_far && answer == Answer::Yes);
        self.no_top += u64::from(numbers.contains(&i32::MIN));
        self.no_bottom += u64::from(numbers.contains(&i32::MAX));
        self.several += u64::from(numbers.len() > 2);
    }

    fn least(&self) -> Option<u64> {
        let by_sort = [self.yes, self.no, self.contradictions].concat();
        let spans = [self.no_top, self.no_bottom, self.several, self.at_far_ends];
        by_sort.into_iter().chain(spans).min()
    }
}

fn memory_of(held: &Held) -> Memory {
    let mut memory = Memory::zeros(Lent::EXACT);
    memory.block = encode(held);
    memory
}

/// An answer and the numbers that it wrote.
fn ask(memory: &mut Memory, question: Record) -> (Answer, Vec<i32>) {
    let (answer, _) = record(memory, &Lent::EXACT, &bytes(&question));
    let written = match answer {
        Answer::Spans(count) => 2 * count as usize,
        _ => 0,
    };
    (answer, memory.spans[..written].to_vec())
}

/// Depths of the section and beside it, and those that 32 bits end at.
fn near(held: &Held) -> Vec<i64> {
    let ends = held.movable().into_iter().map(i64::from);
    let beside = ends.flat_map(|end| [end - 1, end, end + 1]);
    let wide = [-(1 << 32), i32::MIN.into(), -1, 0, 1, 1 << 31, 1 << 32];
    beside.chain(wide).collect()
}

/// As far away as 64 bits go on either line.
fn far(way: Move) -> [i64; 6] {
    let back = match way {
        Move::Shift(by) => [i64::MIN, i64::MAX].map(|end| end.saturating_sub(by.into())),
        Move::Mirror => [i64::MIN + 2, i64::MAX - 1],
    };
    let ends = [i64::MIN, i64::MIN + 1, i64::MAX - 1, i64::MAX];
    [ends[0], ends[1], back[0], back[1], ends[2], ends[3]]
}

/// Questions of a section: spans of each label on two items, and labels and links at depths.
fn questions(dice: &mut Dice, held: &Held, way: Move) -> Vec<Record> {
    let other = mark(dice).fact;
    let marked = held.marks.first().map_or(other, |mark| mark.fact);
    let ([item, to], [beside, _]) = (marked.items(), other.items());
    let derived = has(item, label(dice, 0));
    let both = [item, beside].map(|item| LABELS_USED.map(|label| spans(item, label)));
    let mut questions = both.concat();
    questions.extend(LABELS_USED.map(|label| query(has(item, label), dice.pick(&far(way)))));
    for fact in [marked, derived, link(item, 0, to), link(beside, 7, to)] {
        questions.extend((0..4).map(|_| query(fact, dice.pick(&near(held)))));
        questions.push(query(fact, dice.pick(&far(way))));
    }
    questions
}

/// What the calls answer, with the pairs that SPANS writes. Both tables show the same pieces.
fn answers_go_along(mirror: bool) {
    let mut compared = Compared::default();
    for seed in 0..100 {
        let (held, way, to) = moved(seed, mirror);
        let (mut here, mut there) = (memory_of(&held), memory_of(&to));
        for question in questions(&mut Dice::new(seed), &held, way) {
            let Some(asked) = way.question(question) else {
                continue;
            };
            let (answer, numbers) = ask(&mut here, question);
            let wanted = (answer, way.pairs(&numbers));
            assert_eq!(ask(&mut there, asked), wanted, "seed {seed}, {question:?}");
            compared.count(question, answer, &numbers);
        }
        if !mirror {
            let tables = |memory: Memory| (memory.labels, memory.links);
            assert_eq!(tables(there), tables(here), "seed {seed}");
        }
    }
    assert!(compared.least() > Some(20), "{compared:?}");
}

#[test]
fn shifted_answers() {
    answers_go_along(false);
}

#[test]
fn mirrored_answers() {
    answers_go_along(true);
}

/// A bill for each item, of the labels that are used, so that some come twice.
fn bill(dice: &mut Dice) -> Vec<Line> {
    let labels = match dice.percent(60) {
        true => &LABELS_USED[1..],
        false => &LABELS_USED[..],
    };
    let count = dice.pick(&[0, 1, 1, 2, 3]);
    let mut line = || Line {
        label: dice.pick(labels).into(),
        price: dice.pick(&[0, 1, 250, MAX_PRICE]),
        least: dice.pick(&[0, 1, 300, MAX_PRICE]),
    };
    (0..count).map(|_| line()).collect()
}

/// The same with all depths 75 times as far from zero, so that the metres of spans differ.
fn stretched(held: &Held) -> Held {
    let end = |end: i32| end * 75;
    let mark = |mark: &Mark| Mark {
        top: end(mark.top),
        bottom: end(mark.bottom),
        ..*mark
    };
    Held {
        hole: held.hole.map(|hole| Hole {
            top: end(hole.top),
            bottom: end(hole.bottom),
        }),
        marks: held.marks.iter().map(mark).collect(),
        ..held.clone()
    }
}

/// Totals over 0, charges that are open and contradictions.
fn charge_sort(charge: Charge) -> Option<usize> {
    match charge {
        Charge::Total(total) => (total > 0).then_some(0),
        Charge::Open => Some(1),
        Charge::Contradiction(_) => Some(2),
        Charge::Refused(_) => None,
    }
}

/// What is charged is the same on either line, to the cent.
#[test]
fn charges_stay() {
    let mut seen = [0; 3];
    for (seed, mirror) in (0..500).flat_map(|seed| [(seed, false), (seed, true)]) {
        let mut dice = Dice::new(seed);
        let held = stretched(&moved(seed, mirror).0);
        let way = match mirror {
            true => Move::Mirror,
            false => Move::Shift(some_shift(&mut dice, &held)),
        };
        // Stretched, a section that lay at an end of the range may leave it.
        let Some(to) = held.moved(way).filter(Held::reachable) else {
            continue;
        };
        let (mut here, mut there) = (memory_of(&held), memory_of(&to));
        for item in ITEMS_USED {
            let given = numbers(&bill(&mut dice));
            let said = charge(&mut here, &Lent::EXACT, &given, item.into());
            let other = charge(&mut there, &Lent::EXACT, &given, item.into());
            assert_eq!(other, said, "seed {seed}, {way:?}");
            charge_sort(said).iter().for_each(|&sort| seen[sort] += 1);
        }
    }
    assert!(seen.iter().all(|&count| count > 100), "{seen:?}");
}

/// The record of kind 20 leads to the moved section, and twice mirrored is the section itself.
#[test]
fn there_and_back() {
    for seed in 0..500 {
        let (held, way, to) = moved(seed, false);
        let Move::Shift(by) = way else { unreachable!() };
        let mut memory = memory_of(&held);
        let shift = bytes(&Record::Shift(by));
        let said = record(&mut memory, &Lent::EXACT, &shift);
        assert_eq!(said, (Answer::Done, 8));
        assert_eq!(memory, memory_of(&to), "seed {seed}");
        let (held, way, to) = moved(seed, true);
        assert_eq!(to.moved(way), Some(held), "seed {seed}");
    }
}

#[test]
fn questions_and_pairs() {
    let (none, deep) = (i32::MIN, i32::MAX);
    let pairs = [none, -5, 7, 9, 30, deep];
    assert_eq!(Move::Shift(-8).pairs(&pairs), [none, -13, -1, 1, 22, deep]);
    assert_eq!(Move::Mirror.pairs(&pairs), [none, -30, -9, -7, 5, deep]);
    assert_eq!(Move::Mirror.pairs(&[3, deep]), [none, -3]);
    assert_eq!(Move::Shift(3).depth(i64::MAX - 3), Some(i64::MAX));
    assert_eq!(Move::Shift(3).depth(i64::MAX - 2), None);
    assert_eq!(Move::Shift(i32::MIN).depth(i64::MIN), None);
    assert_eq!(Move::Mirror.depth(i64::MAX), Some(i64::MIN + 1));
    assert_eq!(Move::Mirror.depth(i64::MIN), None);
}
