//! The specification's cases at the edges, as steps of one script.

use crate::script::{Part, Script, WHOLE};
use model::block::{COUNTING_AT, MARKS_AT, MARK_PLACE, RULES_AT, SIZE};
use model::frame::{bytes, framed};
use model::service::Lent;
use model::short::*;
use model::terms::*;

/// Tables and span buffer hold something, so that a stray write shows.
pub fn refill(script: &mut Script) {
    script.fill(Part::Labels, 3);
    script.fill(Part::Links, 5);
    script.fill(Part::Spans, 7);
}

/// The same for the block's tail.
pub fn patterns(script: &mut Script) {
    refill(script);
    [(SIZE, 1), (SIZE + 1, 2), (4_500, 3), (5_119, 4)]
        .into_iter()
        .for_each(|(place, value)| script.poke(place, value));
}

/// The empty state again, and no byte left.
pub fn the_end(script: &mut Script) {
    script.send(&Record::Reset);
    script.call(&WHOLE, &[]);
}

pub fn example(script: &mut Script) {
    script.send_all(worked_example());
    script.spans(&WHOLE, 0, 3);
}

/// Refusals 3 to 5, on a block that holds something.
pub fn refused_frames(script: &mut Script) {
    let frames: [&[u8]; 15] = [
        &[2],
        &[2, 0, 1],
        &[1, 0, 1, 0],
        &[0, 0, 1, 0, 9],
        &[3, 0, 1, 0],
        &[255, 255, 12, 0, 0, 0],
        &framed(0, &[]),
        &framed(17, &[0; 4]),
        &framed(0x010a, &[0; 10]),
        &framed(0x010d, &[0; 10]),
        &framed(13, &[0; 6]),
        &framed(14, &[0; 10]),
        &framed(15, &[0; 11]),
        &framed(16, &[0; 12]),
        &framed(12, &[0; 3]),
    ];
    refill(script);
    frames.into_iter().for_each(|input| {
        script.call(&WHOLE, input);
    });
    script.call(&WHOLE, &framed(1, &[0]));
    script.call(&WHOLE, &[&framed(7, &[0; 6])[..], &[1, 2, 3]].concat());
}

/// Refusals 6 to 10; where two apply, the lower one counts.
pub fn refused_bodies(script: &mut Script) {
    refill(script);
    script.send_all([
        put(has(16, 1), 5),
        put(has(0, EVERY), 5),
        take(has(0, NEVER), 5),
        put(link(0, 8, 0), 5),
        query(has(0, 64), 5),
        spans(16, 0),
        via(0, 63, 1),
        both(1, 62, 0),
        label(whole(9), NEVER, 1),
        label(within(0), 1, 1),
        label(within(MAX_N + 1), 1, 1),
        label(Operator { code: BELOW, n: 1 }, 1, 1),
        link_rule(whole(0), 7, 7),
        link_rule(whole(6), 0, 0),
        put(has(0, 1), i32::MAX),
        take(has(0, 1), i32::MIN),
        take(has(0, 4), 106),
        take(link(0, 0, 1), 100),
        label(within(11), 1, 1),
    ]);
}

/// Each memory one short, and no memory at all, for records, end and the span call.
pub fn short_memory(script: &mut Script) {
    let exact = Lent::EXACT;
    let short = [
        Lent {
            block: SIZE - 1,
            ..exact
        },
        Lent {
            labels: exact.labels - 1,
            ..exact
        },
        Lent {
            links: exact.links - 1,
            ..exact
        },
        Lent {
            spans: exact.spans - 1,
            ..WHOLE
        },
        Lent::NOTHING,
    ];
    short.iter().for_each(|lent| {
        script.call(lent, &bytes(&Record::Reset));
        script.call(lent, &[]);
        script.spans(lent, 16, 64);
    });
    script.call(&exact, &[]);
    script.call(&exact, &bytes(&query(has(0, 4), 104)));
    script.spans(&exact, 0, 4);
    script.spans(&exact, 16, 0);
    script.spans(&WHOLE, 0, 64);
}

/// Places of the block and values there that no run of records leads to.
const BAD: [(usize, u8); 19] = [
    (0, 2),
    (0, 129),
    (1, 1),
    (2, 1),
    (3, 2),
    (COUNTING_AT, 2),
    (31, 255),
    (RULES_AT, 6),
    (RULES_AT + 3, 0),
    (RULES_AT + 4, 1),
    (RULES_AT + 8, 1),
    (MARKS_AT, 5),
    (MARKS_AT, 13),
    (MARKS_AT + 2, NEVER),
    (MARKS_AT + 3, 1),
    (MARKS_AT + 4, 11),
    (MARKS_AT + 7, 128),
    (MARKS_AT - 1, 1),
    (SIZE - 1, 1),
];

/// Blocks that no run of records leads to; the tail does not count.
pub fn bad_blocks(script: &mut Script) {
    let ask = query(has(0, EVERY), 0);
    script.send_all([
        Record::Reset,
        put(has(1, 2), 10),
        put(has(1, 2), 11),
        both(1, 2, 3),
    ]);
    refill(script);
    BAD.into_iter()
        .for_each(|(place, value)| script.spoiled(place, value, &ask));
    script.spoiled(COUNTING_AT, 2, &Record::Reset);
    script.spoiled(SIZE, 255, &ask);
    // A changed label is another block that records lead to.
    script.spoiled(MARKS_AT + 2, 9, &spans(1, 9));
    script.fill(Part::Block, 9);
    script.send(&ask);
    script.send(&Record::Reset);
    script.call(&WHOLE, &[]);
    script.spans(&WHOLE, 0, 0);
    script.fill(Part::Block, 0);
    patterns(script);
}

pub fn neighbouring_marks(script: &mut Script) {
    script.send_all([
        Record::Reset,
        put(has(3, 7), 6),
        put(has(3, 7), 5),
        query(has(3, 7), 5),
        spans(3, 7),
        spans(3, 8),
    ]);
}

pub fn ends_of_the_range(script: &mut Script) {
    let (low, high) = (i64::from(SHALLOWEST), i64::from(DEEPEST));
    script.send_all([
        Record::Reset,
        label(whole(BELOW), 1, 2),
        label(whole(ABOVE), 1, 3),
    ]);
    script.send_all([DEEPEST, DEEPEST + 1, SHALLOWEST, SHALLOWEST - 1].map(|d| put(has(0, 1), d)));
    let asked = [
        low - 1,
        low,
        high,
        high + 1,
        i64::MIN,
        i64::MAX,
        1 << 31,
        -(1 << 31),
    ];
    asked.into_iter().for_each(|depth| {
        script.send_all([1, 2, 3].map(|label| query(has(0, label), depth)));
    });
    script.send_all([1, 2, 3].map(|label| spans(0, label)));
    script.send_all([
        label(within(MAX_N), 1, 4),
        spans(0, 4),
        label(within(1), 1, 5),
        spans(0, 5),
    ]);
    script.send_all([
        take(has(0, 1), DEEPEST + 1),
        take(has(0, 1), DEEPEST),
        spans(0, 2),
    ]);
}

/// A rule for each operator without a distance, from one label to four others in a row.
pub fn whole_rules(left: u8, first: u8) -> [Record; 4] {
    let rule = |code| label(whole(code), left, first + code - BETWEEN);
    [BETWEEN, ABOVE, BELOW, ANYWHERE].map(rule)
}

pub fn operators(script: &mut Script) {
    script.send(&Record::Reset);
    script.send_all([-3, -2, 0, 4].map(|depth| put(has(0, 1), depth)));
    script.send_all([label(within(3), 1, 2), label(within(1), 1, 3)]);
    script.send_all(whole_rules(1, 4));
    script.send_all([
        label(whole(ANYWHERE), 8, 9),
        label(within(19), 10, 11),
        label(within(20), 10, 12),
        put(has(0, 10), 104),
        put(has(0, 10), 123),
    ]);
    script.send_all((0..13).map(|label| spans(0, label)));
}

pub fn links(script: &mut Script) {
    script.send_all([
        Record::Reset,
        via(0, 2, 3),
        put(link(0, 0, 1), 10),
        put(has(1, 2), 11),
        query(has(0, 3), 10),
        put(has(1, 2), 10),
        query(has(0, 3), 10),
        query(has(0, 3), 11),
        link_rule(within(6), 0, 1),
        link_rule(whole(BELOW), 1, 7),
        put(link(0, 0, 1), 15),
        put(link(15, 0, 15), 12),
        query(link(0, 1, 1), 13),
        query(link(1, 1, 0), 13),
        query(link(0, 7, 1), i64::MAX),
        via(7, EVERY, 20),
        via(1, 20, 21),
        spans(0, 20),
        spans(0, 21),
        spans(15, 21),
        query(link(15, 7, 15), 11),
    ]);
}

/// The span buffer is kept on contradiction, the tables show the collection.
pub fn contradictions(script: &mut Script) {
    script.send(&Record::Reset);
    script.send_all(never_everywhere());
    script.fill(Part::Spans, 77);
    script.send_all([
        query(has(0, 1), 0),
        spans(0, 1),
        query(link(0, 0, 0), 5),
        Record::Reset,
    ]);
    script.send_all([
        both(4, 5, NEVER),
        via(2, NEVER - 1, 4),
        put(link(9, 2, 12), 40),
        put(has(12, 62), 40),
        put(has(9, 5), 41),
        spans(9, 4),
        spans(9, NEVER),
        put(has(9, 5), 40),
        spans(9, 4),
        query(has(0, EVERY), 0),
        query(has(9, NEVER), 40),
    ]);
    script.fill(Part::Spans, 78);
    script.spans(&WHOLE, 9, 4);
    script.send_all([take(has(9, 5), 40), spans(9, 4), query(has(9, NEVER), 40)]);
}

/// The rule of that number; all differ.
fn rule(number: u8) -> Record {
    both(number % 60, number / 60, 62)
}

/// The mark of that number; all differ, at 30 depths.
fn mark(number: i32) -> (Fact, i32) {
    (
        has((number % 16) as u8, 1 + (number / 30) as u8),
        number % 30,
    )
}

pub fn full_lists(script: &mut Script) {
    script.send(&Record::Reset);
    script.send_all((0..128).map(rule));
    script.send_all((0..256).map(mark).map(|(fact, depth)| put(fact, depth)));
    refill(script);
    let held = put(mark(255).0, mark(255).1);
    script.send_all([
        held,
        put(has(0, 40), 3),
        put(has(0, 40), 9_000),
        rule(0),
        rule(127),
    ]);
    script.send_all([
        rule(128),
        put(link(0, 0, 0), 3),
        spans(0, 62),
        query(has(15, 2), 1),
    ]);
    script.send_all([
        take(mark(100).0, mark(100).1),
        put(has(0, 40), 9_000),
        put(has(0, 41), 3),
    ]);
    script.send_all([
        take(mark(0).0, mark(0).1),
        take(mark(0).0, mark(0).1),
        spans(0, 40),
    ]);
}

/// A block with a 97th mark at a 97th depth, and then the block of 96 again.
fn one_depth_too_many(script: &mut Script) {
    let place = MARKS_AT + 96 * MARK_PLACE;
    let change = [
        (2, 97),
        (place, 6),
        (place + 2, 5),
        (place + 4, 7),
        (place + 8, 7),
    ];
    script.spoiled_all(&change, &spans(0, 1));
}

pub fn all_depths(script: &mut Script) {
    script.send(&Record::Reset);
    script.send_all((0..96).map(|i| put(has((i % 4) as u8, 1), 10 * i - 200)));
    script.send_all([label(within(40), 1, 2), spans(0, 1), spans(0, 2)]);
    refill(script);
    one_depth_too_many(script);
    script.send_all([
        put(has(5, 5), 7),
        put(link(5, 5, 5), 8),
        put(has(5, 5), -200),
        take(has(0, 1), -200),
        put(has(5, 5), 7),
        take(has(5, 5), -200),
        put(has(5, 5), 7),
        put(has(5, 5), 9),
        query(has(5, 5), 7),
        spans(5, 5),
    ]);
}
