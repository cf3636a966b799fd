//! Random sections of several wells: the joined items again as a closure, over derived links and
//! over held ones, and locality: the marks of joined items alone decide what is said about an item,
//! and marks elsewhere change no answer about it.

use dice::Dice;
use model::charge::{charged, Charge, Line};
use model::depths::Depths;
use model::derive::Collection;
use model::held::Held;
use model::short::{has, link, whole, within};
use model::terms::*;
use std::collections::BTreeSet;

const SECTIONS: u64 = 1_500;
const LABELS_USED: [u8; 6] = [EVERY, 1, 2, 3, 4, NEVER];
const KINDS_USED: u8 = 3;

fn label(dice: &mut Dice, first: i64) -> u8 {
    dice.between(first, 4) as u8
}

fn kind(dice: &mut Dice) -> u8 {
    dice.below(KINDS_USED.into()) as u8
}

fn item(dice: &mut Dice) -> u8 {
    // Few enough to meet, and enough to stay apart.
    dice.pick(&[0, 1, 2, 3, 5, 6, 9, 15])
}

fn operator(dice: &mut Dice) -> Operator {
    let near = within(dice.between(1, 9) as u32);
    let far = whole(dice.between(2, 5) as u8);
    dice.pick(&[near, near, far])
}

fn rule(dice: &mut Dice) -> Rule {
    let (a, b, usual) = (label(dice, 0), label(dice, 0), label(dice, 1));
    let c = dice.pick(&[usual, usual, NEVER]);
    let (r, s) = (kind(dice), kind(dice));
    let op = operator(dice);
    match dice.below(6) {
        0 => Rule::Label { op, a, b: c },
        1 | 2 => Rule::Both { a, b, c },
        3 => Rule::LinkRule { op, r, s },
        _ => Rule::Via { r, a, b: c },
    }
}

fn mark(dice: &mut Dice) -> Mark {
    let fact = match dice.percent(30) {
        true => link(item(dice), kind(dice), item(dice)),
        false => has(item(dice), label(dice, 1)),
    };
    let top = dice.between(0, 20) as i32;
    let bottom = top + dice.pick(&[0, 0, 1, 6]);
    Mark { fact, top, bottom }
}

/// Different marks inside the hole, where there is one.
fn held(dice: &mut Dice) -> Held {
    let (rules, marks) = (dice.between(1, 8), dice.between(4, 16));
    let hole = dice.pick(&[None, None, Some(Hole { top: 2, bottom: 22 })]);
    let mut held = Held {
        counting: dice.pick(&[Counting::Old, Counting::New]),
        hole,
        rules: (0..rules).map(|_| rule(dice)).collect(),
        ..Held::default()
    };
    (0..marks).for_each(|_| toggle(&mut held, mark(dice)));
    held
}

/// Takes a mark that is held and puts another, unless it reaches out of the hole.
fn toggle(held: &mut Held, mark: Mark) {
    let records = [Record::Take(mark), Record::Put(mark)];
    let accepted = records.iter().find(|record| held.refusal(record).is_none());
    if let Some(record) = accepted {
        held.accept(record);
    }
}

fn set(items: impl IntoIterator<Item = u8>) -> BTreeSet<u8> {
    items.into_iter().collect()
}

/// For each item those that chains join to it, from the pairs between which a link leads: a chain
/// through items up to one number after the other.
fn closure(leads: impl Fn(u8, u8) -> bool) -> Vec<BTreeSet<u8>> {
    let next = |a, b| a == b || leads(a, b) || leads(b, a);
    let start = (0..ITEMS).map(|a| set((0..ITEMS).filter(|&b| next(a, b))));
    let mut joined: Vec<BTreeSet<u8>> = start.collect();
    for middle in 0..ITEMS {
        let through = joined[usize::from(middle)].clone();
        let reach = joined.iter_mut().filter(|row| row.contains(&middle));
        reach.for_each(|row| row.extend(&through));
    }
    joined
}

#[test]
fn the_search_is_the_closure() {
    for seed in 0..SECTIONS {
        let held = held(&mut Dice::new(seed));
        let found = Collection::least(&held);
        let derived = closure(|from, to| found.leads(from, to));
        let differ = pairs().find(|&(one, other)| {
            let [a, b] = [one, other].map(|item| &derived[usize::from(item)]);
            set(found.joined([one, other])) != a | b
        });
        assert_eq!(differ, None, "seed {seed}: {held:?}");
        // LINKRULE stays within a pair, so the held links join as much.
        let between = |mark: &Mark| match mark.fact {
            Fact::Link { from, to, .. } => Some((from, to)),
            Fact::Label { .. } => None,
        };
        let marked: BTreeSet<_> = held.marks.iter().filter_map(between).collect();
        let by_marks = closure(|from, to| marked.contains(&(from, to)));
        assert_eq!(by_marks, derived, "seed {seed}: {held:?}");
    }
}

/// All that can be asked about these items and no other.
fn facts([one, other]: [u8; 2]) -> impl Iterator<Item = Fact> {
    let pairs = [(one, one), (one, other), (other, one), (other, other)];
    let labels = [one, other].into_iter();
    let labels = labels.flat_map(|item| LABELS_USED.map(move |label| has(item, label)));
    let links = pairs.into_iter();
    let links = links.flat_map(|(from, to)| (0..KINDS_USED).map(move |kind| link(from, kind, to)));
    labels.chain(links)
}

/// The item of a contradiction, or else all depths at which the answer is yes.
fn said(found: &Collection, asked: Fact) -> Result<Depths, u8> {
    let depths = found.of(asked).clone();
    found.contradiction(asked).map_or(Ok(depths), Err)
}

/// What is asked about in a section, and the items that count.
fn question(dice: &mut Dice, found: &Collection) -> ([u8; 2], BTreeSet<u8>) {
    let (one, two) = (item(dice), item(dice));
    let about = dice.pick(&[[one, one], [one, two]]);
    (about, set(found.joined(about)))
}

#[test]
fn the_marks_of_joined_items_decide() {
    for seed in 0..SECTIONS {
        let mut dice = Dice::new(seed);
        let held = held(&mut dice);
        let found = Collection::least(&held);
        let (about, joined) = question(&mut dice, &found);
        let inside = |mark: &&Mark| mark.fact.items().iter().all(|item| joined.contains(item));
        let alone = Collection::least(&Held {
            marks: held.marks.iter().filter(inside).copied().collect(),
            ..held.clone()
        });
        let differ = facts(about).find(|&fact| said(&found, fact) != said(&alone, fact));
        assert_eq!(differ, None, "seed {seed}, {about:?}: {held:?}");
    }
}

/// Puts and takes some marks that are on none of these items.
fn changed_elsewhere(dice: &mut Dice, held: &Held, joined: &BTreeSet<u8>) -> Held {
    let mut after = held.clone();
    let drawn = dice.between(1, 6);
    let mut marks: Vec<Mark> = (0..drawn).map(|_| mark(dice)).collect();
    marks.extend(held.marks.iter().filter(|_| dice.percent(40)));
    marks.retain(|mark| !mark.fact.items().iter().any(|item| joined.contains(item)));
    marks.into_iter().for_each(|mark| toggle(&mut after, mark));
    after
}

fn bad(found: &Collection) -> BTreeSet<u8> {
    set((0..ITEMS).filter(|&item| found.is_bad(item)))
}

/// What a change elsewhere left as it was.
#[derive(Default)]
struct Left {
    contradictions: u64,
    beside_bad: u64,
    beside_new_bad: u64,
    beside_freed: u64,
}

impl Left {
    fn count(&mut self, before: &Collection, after: &Collection, asked: Fact) {
        let (old, new) = (bad(before), bad(after));
        let contradiction = before.contradiction(asked).is_some();
        self.contradictions += u64::from(contradiction && old != new);
        self.beside_bad += u64::from(!contradiction && !old.is_empty());
        self.beside_new_bad += u64::from(!contradiction && !new.is_subset(&old));
        self.beside_freed += u64::from(!contradiction && !old.is_subset(&new));
    }
}

#[test]
fn marks_elsewhere_change_nothing() {
    let mut left = Left::default();
    for seed in 0..SECTIONS {
        let mut dice = Dice::new(seed);
        let held = held(&mut dice);
        let before = Collection::least(&held);
        let (about, joined) = question(&mut dice, &before);
        let other = changed_elsewhere(&mut dice, &held, &joined);
        let after = Collection::least(&other);
        // The same items are joined after the change, so its marks are on none of those either.
        assert_eq!(set(after.joined(about)), joined, "seed {seed}");
        let differ = facts(about).find(|&fact| said(&before, fact) != said(&after, fact));
        assert_eq!(differ, None, "seed {seed}, {about:?}: {held:?} {other:?}");
        left.count(&before, &after, link(about[0], 0, about[1]));
    }
    let seen = [
        left.contradictions,
        left.beside_bad,
        left.beside_new_bad,
        left.beside_freed,
    ];
    assert!(seen.iter().all(|&count| count > 90), "{seen:?}");
}

/// Bills of each used label alone, and of all but EVERY together.
fn bills() -> Vec<Vec<Line>> {
    let line = |label: &u8| Line {
        label: (*label).into(),
        price: 250,
        least: 400,
    };
    let mut bills: Vec<Vec<Line>> = LABELS_USED.iter().map(|label| vec![line(label)]).collect();
    bills.push(LABELS_USED[1..].iter().map(line).collect());
    bills
}

/// A change of marks elsewhere alters no charge about the item, be it a total, open or a
/// contradiction, though other items become bad or good by it.
#[test]
fn marks_elsewhere_cost_nothing() {
    let mut seen = [0; 3];
    for seed in 0..SECTIONS {
        let mut dice = Dice::new(seed);
        let held = held(&mut dice);
        let before = Collection::least(&held);
        let item = item(&mut dice);
        let joined = set(before.joined([item, item]));
        let after = Collection::least(&changed_elsewhere(&mut dice, &held, &joined));
        let changed = bad(&before) != bad(&after);
        for lines in bills() {
            let said = charged(&before, item, &lines);
            assert_eq!(charged(&after, item, &lines), said, "seed {seed}, {item}");
            match said {
                Charge::Total(total) => seen[0] += u64::from(changed && total > 0),
                Charge::Open => seen[1] += u64::from(changed),
                _ => seen[2] += u64::from(changed),
            }
        }
    }
    assert!(seen.iter().all(|&count| count > 90), "{seen:?}");
}
