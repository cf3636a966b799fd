//! Contradiction by joined items at the edges, as steps of the same script.

use crate::cases::{patterns, refill};
use crate::script::{Part, Script, WHOLE};
use model::service::Lent;
use model::short::*;
use model::terms::*;

/// An item with this label is bad.
const BROKEN: u8 = 1;
const SAND: u8 = 2;

/// The empty state with the rule that makes items bad.
fn fresh(script: &mut Script) {
    script.send_all([Record::Reset, label(within(1), BROKEN, NEVER)]);
}

fn bad(item: u8) -> Record {
    put(has(item, BROKEN), 40)
}

/// The links that these pairs are, at a depth and of a kind of their own.
fn ties(script: &mut Script, pairs: &[(u8, u8)]) {
    for (&(from, to), depth) in pairs.iter().zip(10..) {
        script.send(&put(link(from, depth as u8 % KINDS, to), depth));
    }
}

/// The span call about each of these items.
fn ask_each(script: &mut Script, items: impl IntoIterator<Item = u8>) {
    items
        .into_iter()
        .for_each(|item| script.spans(&WHOLE, item, EVERY));
}

/// All items in one chain, its links one way and the other, with NEVER at the far end; then a link
/// in the middle is taken, and put the other way round.
pub fn chain(script: &mut Script) {
    patterns(script);
    fresh(script);
    let pair = |item: u8| match item % 3 {
        0 => (item + 1, item),
        _ => (item, item + 1),
    };
    ties(script, &(0..15).map(pair).collect::<Vec<_>>());
    script.send(&bad(15));
    ask_each(script, 0..ITEMS);
    script.send_all([query(has(0, SAND), 0), query(link(0, 0, 0), 0)]);
    script.send(&take(link(7, 1, 8), 17));
    ask_each(script, [0, 6, 7, 8, 9, 15]);
    script.send_all([put(link(8, 7, 7), -500), spans(0, EVERY), bad(4)]);
    ask_each(script, [0, 15]);
}

/// A bad well between two clean ones: the span buffer is written for those and kept for it, and
/// the tables show all of them.
pub fn wells(script: &mut Script) {
    fresh(script);
    ties(script, &[(0, 1), (6, 4), (4, 9), (12, 13)]);
    let sand = [1, 4].map(|item| put_from_to(has(item, SAND), 5, 15));
    script.send_all([via(2, SAND, SAND), via(3, SAND, SAND), bad(9)]);
    script.send_all(sand);
    for item in [0, 6, 12] {
        refill(script);
        script.send(&query(has(item, SAND), 10));
        script.send(&query(has(item, SAND), 11));
        script.send(&spans(item, SAND));
        script.fill(Part::Spans, 90 + item);
        script.spans(&Lent::EXACT, item, SAND);
    }
}

/// Items joined to either end of a link count: the first well is bad, then both, then the second.
pub fn ends_apart(script: &mut Script) {
    fresh(script);
    ties(script, &[(1, 9), (12, 3), (5, 6)]);
    let pairs = [(1, 3), (3, 1), (1, 5), (6, 3), (5, 6)];
    let asked = pairs.map(|(from, to)| query(link(from, 4, to), 12));
    script.send(&bad(9));
    script.send_all(asked);
    script.send(&bad(12));
    script.send_all(asked);
    script.send(&take(has(9, BROKEN), 40));
    script.send_all(asked);
    // Held links, asked where they are and where they aren't.
    script.send_all([query(link(5, 4, 6), 11), query(link(12, 3, 3), 11)]);
}

/// Pairs that join 2, 3 and 5 along, against, and one each way.
const WAYS: [[(u8, u8); 2]; 4] = [
    [(3, 2), (3, 5)],
    [(2, 3), (5, 3)],
    [(2, 3), (3, 5)],
    [(5, 3), (3, 2)],
];

pub fn either_way(script: &mut Script) {
    for pairs in WAYS {
        fresh(script);
        ties(script, &pairs);
        script.send(&bad(2));
        ask_each(script, [2, 3, 5, 4]);
    }
}

/// Loops of two and of three items, and an item that leads to itself.
pub fn loops(script: &mut Script) {
    fresh(script);
    let pairs = [(1, 2), (2, 3), (3, 1), (6, 8), (8, 6), (10, 10), (11, 11)];
    ties(script, &pairs);
    script.send_all([bad(3), bad(11)]);
    ask_each(script, [1, 2, 3, 6, 8, 10, 11]);
    script.send_all([10, 11].map(|item| query(link(item, 0, item), 0)));
    script.send(&bad(8));
    ask_each(script, [6, 8, 10]);
}

/// The lowest item with NEVER is named: not the lowest joined, not the nearest, and not a lower one
/// of another well.
pub fn named(script: &mut Script) {
    fresh(script);
    ties(script, &[(1, 9), (2, 14), (14, 11), (4, 11)]);
    script.send(&bad(9));
    ask_each(script, [1, 9]);
    script.send_all([bad(14), bad(11), bad(0)]);
    ask_each(script, [2, 4, 11, 14, 9, 0]);
    script.send_all([query(link(2, 0, 1), 0), query(link(1, 0, 0), 0)]);
}

/// A link that is put and taken while the other well is bad, and one that still joins them.
pub fn one_link(script: &mut Script) {
    fresh(script);
    let question = spans(0, SAND);
    script.send_all([put(has(0, SAND), 30), bad(1), question]);
    let (first, second) = (
        from_to(link(0, 0, 1), -3, 3),
        from_to(link(1, 7, 0), 90, 90),
    );
    for record in [
        Record::Put(first),
        Record::Put(second),
        Record::Take(first),
        Record::Take(second),
    ] {
        script.fill(Part::Spans, 110);
        script.send_all([record, question]);
    }
}

/// The links of a chain, NEVER and the question are all at other depths, in a hole and without one.
pub fn other_depths(script: &mut Script) {
    for given in [None, Some(hole(0, 100))] {
        fresh(script);
        script.send_all(given);
        ties(script, &[(0, 1), (1, 2), (4, 5)]);
        script.send(&bad(2));
        let facts = [has(0, EVERY), has(5, EVERY), link(4, 4, 0), link(4, 4, 5)];
        script.send_all(facts.map(|fact| query(fact, 12)));
        script.send_all(facts.map(|fact| query(fact, i64::MAX)));
        script.send_all([spans(0, EVERY), spans(5, EVERY)]);
    }
}

/// LINKRULE joins no pair that a held link doesn't; VIA makes the item bad that a link leads from.
pub fn derived(script: &mut Script) {
    script.send_all([
        Record::Reset,
        link_rule(whole(ANYWHERE), 0, 7),
        via(7, SAND, NEVER),
        put(link(8, 0, 3), 10),
        put(link(5, 0, 6), 10),
        put(has(3, SAND), 500),
    ]);
    ask_each(script, [3, 8, 5, 6, 7]);
    script.send_all([0, 7].map(|kind| query(link(5, kind, 6), 500)));
    script.send_all([0, 7].map(|kind| query(link(3, kind, 6), 500)));
}

/// Every item has NEVER: each names itself, or the lowest that it is joined to.
pub fn all_bad(script: &mut Script) {
    script.send(&Record::Reset);
    script.send_all(never_everywhere());
    script.send_all([0, 5, 15].map(|item| query(has(item, 5), 0)));
    script.send_all([(5, 3), (3, 5), (15, 15)].map(|(from, to)| query(link(from, 0, to), 0)));
    script.send(&put(link(9, 2, 4), 7));
    ask_each(script, [0, 4, 9, 15]);
}
