//! Marks with top and bottom at the edges, as steps of the same script.

use crate::cases::{refill, whole_rules};
use crate::script::{Part, Script, WHOLE};
use model::block::{MARKS_AT, MARK_PLACE};
use model::service::Lent;
use model::short::*;
use model::terms::*;

/// A stretch 100 to 110 and a point at 120, which is 10 from it.
pub fn operators(script: &mut Script) {
    script.send_all([Record::Reset, put_from_to(has(0, 1), 100, 110)]);
    script.send_wide(&put(has(0, 1), 120));
    script.send_all([
        label(within(1), 1, 2),
        label(within(10), 1, 3),
        label(within(11), 1, 4),
    ]);
    script.send_all(whole_rules(1, 5));
    script.send_all((1..9).map(|label| spans(0, label)));
    let asked = [99, 100, 101, 105, 109, 110, 111, 119, 120, 121];
    script.send_all(asked.map(|depth| query(has(0, 1), depth)));
    script.send_all([query(has(0, 3), 111), query(has(0, 4), 111)]);
    script.spans(&Lent::EXACT, 0, 4);
    script.spans(&WHOLE, 0, 6);
}

/// Two stretches of one label that overlap, nest, touch or share an end.
const PAIRS: [[(i32, i32); 2]; 11] = [
    [(10, 20), (15, 30)],
    [(15, 30), (10, 20)],
    [(10, 30), (15, 20)],
    [(10, 20), (21, 30)],
    [(10, 20), (22, 30)],
    [(10, 20), (20, 30)],
    [(10, 20), (10, 30)],
    [(10, 30), (20, 30)],
    [(10, 20), (20, 20)],
    [(10, 20), (21, 21)],
    [(-5, -1), (0, 4)],
];

/// Both are put, then the first is taken.
pub fn beside_each_other(script: &mut Script) {
    for ends in PAIRS {
        let [first, second] = ends.map(|(top, bottom)| from_to(has(2, 9), top, bottom));
        script.send_all([Record::Reset, Record::Put(first), Record::Put(second)]);
        script.send_all([
            spans(2, 9),
            query(has(2, 9), first.bottom.into()),
            take_from_to(has(2, 9), first.top.min(second.top), 30),
            Record::Take(first),
            spans(2, 9),
            query(has(2, 9), first.bottom.into()),
        ]);
    }
}

/// A point is the same mark by the old kinds and by the new ones; a stretch is another.
pub fn either_kind(script: &mut Script) {
    for fact in [has(1, 2), link(3, 4, 5)] {
        script.send(&Record::Reset);
        script.send(&put(fact, -7));
        script.send_wide(&put(fact, -7));
        script.send_wide(&take(fact, -7));
        script.send_wide(&put(fact, -7));
        script.send_all([
            put(fact, -7),
            put_from_to(fact, -7, -6),
            put_from_to(fact, -8, -7),
            take(fact, -7),
            take(fact, -7),
            take(fact, -6),
            take_from_to(fact, -8, -6),
            query(fact, -7),
            take_from_to(fact, -8, -7),
            take_from_to(fact, -7, -6),
            query(fact, -7),
        ]);
    }
}

/// Item, top and bottom: 6 goes before 8, and 8 before 14.
const TURNED_AWAY: [(u8, i32, i32); 12] = [
    (16, 6, 5),
    (16, DEEPEST + 1, 5),
    (0, DEEPEST + 1, 5),
    (0, 5, DEEPEST + 1),
    (0, DEEPEST + 1, DEEPEST + 2),
    (0, DEEPEST + 2, DEEPEST + 1),
    (0, SHALLOWEST - 1, 5),
    (0, 5, SHALLOWEST - 1),
    (0, i32::MAX, i32::MIN),
    (0, i32::MIN, i32::MAX),
    (0, 6, 5),
    (0, DEEPEST, SHALLOWEST),
];

/// Puts and takes alike, without a look at what is held.
pub fn refused_bodies(script: &mut Script) {
    script.send_all([Record::Reset, put_from_to(has(0, 1), 5, 6)]);
    refill(script);
    for (item, top, bottom) in TURNED_AWAY {
        script.send_all([
            put_from_to(has(item, 1), top, bottom),
            take_from_to(has(item, 1), top, bottom),
            put_from_to(link(0, 7, item), top, bottom),
            take_from_to(link(item, 0, 0), top, bottom),
        ]);
    }
    script.send_all([
        put_from_to(has(0, EVERY), 5, 6),
        put_from_to(has(0, NEVER), 6, 5),
        put_from_to(link(0, 8, 0), 5, 6),
        put_from_to(has(0, 1), 5, 6),
        take_from_to(has(0, 1), 5, 7),
        take_from_to(has(0, 1), 4, 6),
        take_from_to(has(1, 1), 5, 6),
        take_from_to(link(0, 1, 0), 5, 6),
        spans(0, 1),
    ]);
}

/// A stretch over all that can be marked, and shorter ones at its ends.
pub fn ends_of_the_range(script: &mut Script) {
    script.send_all([
        Record::Reset,
        label(whole(ABOVE), 1, 2),
        label(whole(BELOW), 1, 3),
        put_from_to(has(0, 1), SHALLOWEST, DEEPEST),
        put_from_to(has(0, 4), SHALLOWEST, SHALLOWEST + 1),
        put_from_to(has(0, 4), DEEPEST - 1, DEEPEST),
        put_from_to(has(0, 4), SHALLOWEST, SHALLOWEST),
        put_from_to(has(0, 4), DEEPEST, DEEPEST),
    ]);
    let asked = [i64::MIN, -10_001, -10_000, 0, 200_000, 200_001];
    script.send_all(asked.map(|depth| query(has(0, 1), depth)));
    script.send_all((1..5).map(|label| spans(0, label)));
    script.send_all([
        label(within(MAX_N), 4, 5),
        label(within(209_999), 4, 6),
        label(within(209_998), 4, 7),
    ]);
    script.send_all((5..8).map(|label| spans(0, label)));
    script.send_all([
        take_from_to(has(0, 1), SHALLOWEST, DEEPEST),
        spans(0, 1),
        spans(0, 4),
    ]);
}

/// Link stretches under LINKRULE and VIA, and a contradiction where two stretches meet.
pub fn links(script: &mut Script) {
    script.send_all([
        Record::Reset,
        via(0, 2, 3),
        link_rule(within(6), 0, 1),
        put_from_to(link(0, 0, 1), 10, 20),
        put_from_to(has(1, 2), 15, 30),
        spans(0, 3),
        put_from_to(link(0, 0, 1), 25, 26),
        query(link(0, 0, 1), 23),
        query(link(0, 1, 1), 23),
        query(link(1, 1, 0), 23),
        spans(0, 3),
        take_from_to(link(0, 0, 1), 10, 20),
        spans(0, 3),
        both(3, 4, NEVER),
        put_from_to(has(0, 4), 27, 40),
        spans(0, 3),
    ]);
    script.fill(Part::Spans, 79);
    script.send_all([
        put_from_to(has(0, 4), 0, 25),
        spans(0, 3),
        query(has(1, 2), 16),
        take_from_to(has(0, 4), 0, 25),
        spans(0, 4),
    ]);
}

/// Bytes of the second place that no run of records leads to: the mark there is 10 to 12.
const BAD: [(usize, u8); 13] = [
    (0, 13),
    (0, 14),
    (0, 0),
    (1, 16),
    (2, EVERY),
    (3, 1),
    // A top below the bottom, and two out of range.
    (4, 13),
    (6, 4),
    (7, 128),
    // A bottom that makes a double, one above the top, and two out of range.
    (8, 10),
    (8, 9),
    (10, 4),
    (11, 255),
];

pub fn bad_blocks(script: &mut Script) {
    script.send_all([Record::Reset, put(has(1, 2), 10)]);
    script.send(&put_from_to(has(1, 2), 10, 12));
    refill(script);
    let (ask, place) = (query(has(1, 2), 11), MARKS_AT + MARK_PLACE);
    BAD.into_iter()
        .for_each(|(at, value)| script.spoiled(place + at, value, &ask));
    script.spoiled(place + MARK_PLACE + 8, 1, &ask);
    script.spoiled_all(&[(place + 4, 12), (place + 8, 10)], &Record::Reset);
    // Other ends are other blocks that records lead to, also with both equal.
    script.spoiled(place + 4, 11, &spans(1, 2));
    script.spoiled(place + 4, 12, &spans(1, 2));
    script.spoiled(place + 8, 200, &spans(1, 2));
}

/// 47 stretches with 94 ends, then two ends more, then one; those inside don't count.
pub fn all_ends(script: &mut Script) {
    script.send(&Record::Reset);
    script.send_all((0..47).map(|i| put_from_to(has((i % 4) as u8, 1), 20 * i, 20 * i + 10)));
    let two = put_from_to(has(5, 5), 1_001, 1_002);
    let one = put_from_to(has(5, 5), 0, 1_003);
    let none = put_from_to(has(5, 5), 0, 930);
    script.send_all([none, put(has(5, 6), 5), two, take(has(5, 6), 5), two, one]);
    script.send_all([
        put(has(5, 7), 1_002),
        put_from_to(has(5, 7), 10, 1_001),
        put(has(5, 7), 5),
        put_from_to(has(5, 7), 5, 6),
        put_from_to(has(5, 7), 6, 5),
        put_from_to(has(5, 7), 0, 5),
        put_from_to(link(0, 0, 0), 5, 10),
        spans(0, 1),
        spans(5, 7),
    ]);
    refill(script);
    one_end_too_many(script, 51);
    script.send_all([
        take_from_to(has(5, 7), 10, 1_001),
        one,
        Record::Take(from_to(has(5, 5), 1_001, 1_002)),
        put_from_to(has(5, 7), 5, 6),
        one,
        query(has(5, 5), 1_002),
        spans(5, 5),
    ]);
}

/// A block with one mark more than so many, whose bottom is a 97th end.
fn one_end_too_many(script: &mut Script, marks: u8) {
    let place = MARKS_AT + MARK_PLACE * usize::from(marks);
    let good = [(2, marks + 1), (place, 6), (place + 2, 5), (place + 8, 10)];
    script.spoiled_all(&good, &spans(0, 5));
    let bad = [(2, marks + 1), (place, 6), (place + 2, 5), (place + 8, 11)];
    script.spoiled_all(&bad, &spans(0, 5));
}

/// The stretch of that number; all differ, and have 96 ends together.
fn stretch(number: i32) -> Mark {
    let (turn, start) = ((number / 48) as u8, number % 48);
    let fact = match turn {
        2 | 5 => link((start % 3) as u8, turn, (start % 2) as u8),
        _ => has((start % 4) as u8, 1 + turn),
    };
    let bottom = 2 * (start + i32::from(turn)) + 1;
    from_to(fact, 2 * start, bottom.min(95))
}

/// All 256 places taken by stretches, with a rule of each kind.
pub fn full_list(script: &mut Script) {
    script.send_all([
        Record::Reset,
        label(within(8), 1, 20),
        via(2, 1, 21),
        link_rule(whole(BETWEEN), 2, 3),
        both(20, 21, 22),
    ]);
    script.send_all((0..256).map(|number| Record::Put(stretch(number))));
    refill(script);
    let held = stretch(255);
    script.send_all([
        Record::Put(held),
        put_from_to(held.fact, held.bottom, held.top),
        put_from_to(has(0, 40), 0, 5),
        put_from_to(has(0, 40), 8_000, 9_000),
        spans(0, 1),
        spans(0, 4),
        spans(0, 20),
        spans(0, 22),
        query(link(0, 2, 0), 45),
        query(link(0, 3, 0), 45),
    ]);
    script.send_all([
        Record::Take(stretch(100)),
        put_from_to(has(0, 40), 8_000, 9_000),
        put_from_to(has(0, 40), 0, 5),
        put_from_to(has(0, 40), 0, 7),
        spans(0, 40),
    ]);
}
