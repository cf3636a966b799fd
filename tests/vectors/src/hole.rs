//! A hole with two ends at the edges, as steps of the same script.

use crate::cases::{patterns, refill, whole_rules};
use crate::script::{Part, Script, WHOLE};
use model::block::{HOLE_AT, HOLE_ENDS_AT, SIZE};
use model::frame::{bytes, framed};
use model::service::Lent;
use model::short::*;
use model::terms::*;

/// A rule for each operator from label 1, one from EVERY, and one for links.
fn rules(script: &mut Script) {
    script.send(&label(within(11), 1, 2));
    script.send_all(whole_rules(1, 3));
    script.send_all([
        label(whole(BELOW), EVERY, 7),
        link_rule(whole(ANYWHERE), 0, 1),
    ]);
}

/// Holes one after the other, each with its one piece. Kind 18 changes the hole's bytes and RESET
/// clears them; tail, tables and span buffer stay as they are.
pub fn giving(script: &mut Script) {
    patterns(script);
    let ends = [
        (10, 30),
        (10, 30),
        (0, 0),
        (-5, -5),
        (SHALLOWEST, DEEPEST),
        (SHALLOWEST, SHALLOWEST),
        (DEEPEST, DEEPEST),
        (-256, 255),
    ];
    for (top, bottom) in ends {
        script.send_all([hole(top, bottom), spans(0, EVERY)]);
    }
    script.send_all([spans(15, 1), Record::Reset, spans(0, EVERY)]);
    // The least that is enough, more records behind, and with a counting and rules.
    script.call(&Lent::EXACT, &bytes(&hole(1, 2)));
    script.call(&WHOLE, &[bytes(&hole(3, 4)), bytes(&hole(5, 6))].concat());
    script.call(&Lent::EXACT, &[]);
    script.send_all([counting(2), both(1, 2, 3), hole(-1, 1), counting(1)]);
    script.send_all([spans(0, EVERY), Record::Reset, spans(0, EVERY)]);
}

/// Kind 18 by every number but 17 that it can be refused with, and kinds that are none.
fn refused_each(script: &mut Script) {
    let short = Lent {
        spans: Lent::EXACT.spans - 1,
        ..WHOLE
    };
    script.call(&short, &bytes(&hole(1, 2)));
    script.call(&short, &bytes(&hole(2, 1)));
    script.spoiled(HOLE_AT + 1, 1, &hole(1, 2));
    let lengths = [0, 4, 7, 9, 12].map(|length| framed(18, &vec![0; length]));
    lengths.iter().for_each(|input| {
        script.call(&WHOLE, input);
    });
    let inputs: [&[u8]; 3] = [
        &framed(0x0112, &[0; 8]),
        &framed(19, &[0; 8]),
        &[10, 0, 18, 0, 1, 0, 0, 0, 2, 0, 0],
    ];
    inputs.into_iter().for_each(|input| {
        script.call(&WHOLE, input);
    });
    let ends = [
        (SHALLOWEST - 1, 5),
        (5, DEEPEST + 1),
        (DEEPEST + 1, SHALLOWEST - 1),
        (i32::MIN, i32::MAX),
        (6, 5),
        (DEEPEST, SHALLOWEST),
    ];
    script.send_all(ends.map(|(top, bottom)| hole(top, bottom)));
}

/// The same with no mark and with one, and then 17, without a hole and with one.
pub fn refused(script: &mut Script) {
    for first in [None, Some(hole(0, 20))] {
        script.send(&Record::Reset);
        refill(script);
        script.send_all(first);
        refused_each(script);
        script.send(&put(link(1, 2, 3), 5));
        refused_each(script);
        script.send_all([hole(0, 20), hole(5, 5), hole(SHALLOWEST, DEEPEST)]);
        script.send_all([take(link(1, 2, 3), 5), hole(7, 9), spans(0, EVERY)]);
    }
}

/// A top and a bottom.
type Ends = (i32, i32);

/// A hole and marks of label 1 in it: around them, with its ends at theirs, of one depth, and as
/// wide as can be.
const MARKED_HOLES: [(Ends, &[Ends]); 7] = [
    ((90, 130), &[(100, 105), (115, 115)]),
    ((100, 115), &[(100, 105), (115, 115)]),
    ((100, 130), &[(100, 105), (115, 115)]),
    ((90, 115), &[(100, 105), (115, 115)]),
    ((100, 101), &[(100, 101)]),
    ((-7, -7), &[(-7, -7)]),
    (
        (SHALLOWEST, DEEPEST),
        &[(SHALLOWEST, SHALLOWEST), (DEEPEST, DEEPEST)],
    ),
];

/// Every operator in each of them, under the same rules; questions at the ends, beside them and far
/// away.
pub fn operators(script: &mut Script) {
    script.send(&Record::Reset);
    rules(script);
    for ((top, bottom), ends) in MARKED_HOLES {
        let marks = || ends.iter().map(|&(t, b)| from_to(has(0, 1), t, b));
        script.send(&hole(top, bottom));
        refill(script);
        script.send_all(marks().map(Record::Put));
        script.send_all((0..8).map(|label| spans(0, label)));
        let [above, top, bottom, below] = [top - 1, top, bottom, bottom + 1].map(i64::from);
        script.send_all([above, top, bottom, below].map(|depth| query(has(0, 6), depth)));
        script.send_all([above, below].map(|depth| query(has(9, EVERY), depth)));
        script.send(&query(has(0, EVERY), top + (1 << 32)));
        script.send_all(marks().map(Record::Take));
    }
    script.send_all([i64::MIN, i64::MAX].map(|depth| query(has(0, EVERY), depth)));
    script.spans(&Lent::EXACT, 0, EVERY);
}

/// Links in a hole, and what leads through them.
pub fn links(script: &mut Script) {
    script.send_all([Record::Reset, hole(10, 30)]);
    rules(script);
    script.send_all([
        via(1, EVERY, 8),
        via(1, 4, 9),
        put_from_to(link(0, 0, 1), 10, 12),
        put(has(1, 1), 20),
        spans(0, 8),
        spans(0, 9),
    ]);
    script.send_all([9, 10, 30, 31].map(|depth| query(link(0, 1, 1), depth)));
    script.send_all([9, 10, 12, 13].map(|depth| query(link(0, 0, 1), depth)));
}

/// Item, top and bottom of marks at the ends of the hole from 10 to 30 and past them: 6, 8 and 14
/// go before 16, and 16 before 9.
const MARKS: [(u8, i32, i32); 17] = [
    (0, 9, 9),
    (0, 31, 31),
    (0, 9, 10),
    (0, 30, 31),
    (0, 9, 31),
    (0, -50, -40),
    (0, 40, 50),
    (0, SHALLOWEST, DEEPEST),
    (0, 31, 30),
    (0, 31, 9),
    (0, 33, 32),
    (0, DEEPEST + 1, 9),
    (0, 9, DEEPEST + 1),
    (16, 9, 31),
    (0, 10, 10),
    (0, 30, 30),
    (0, 10, 30),
];

/// Puts, and takes, which know no 16.
pub fn marks(script: &mut Script) {
    script.send_all([Record::Reset, hole(10, 30)]);
    refill(script);
    let each = |record: fn(Mark) -> Record, fact: fn(u8) -> Fact| {
        MARKS.map(|(item, top, bottom)| record(from_to(fact(item), top, bottom)))
    };
    let label_fact: fn(u8) -> Fact = |item| has(item, 1);
    let link_fact: fn(u8) -> Fact = |item| link(3, 1, item);
    script.send_all(each(Record::Put, label_fact));
    script.send_all(each(Record::Put, label_fact));
    script.send_all(each(Record::Put, link_fact));
    script.send_all([
        spans(0, 1),
        query(link(3, 1, 0), 30),
        query(link(3, 1, 0), 31),
    ]);
    script.send_all(each(Record::Take, link_fact));
    script.send_all(each(Record::Take, label_fact));
    // The last mark is taken, and the hole is still there.
    script.send_all([
        spans(0, EVERY),
        put(has(0, 1), 31),
        hole(31, 31),
        spans(0, EVERY),
    ]);
    script.send_all([put(has(0, 1), 31), put(has(0, 1), 30), spans(0, 1)]);
}

/// The hole's ends are no marked depths: 96 others are taken beside them, and 16 goes before 12.
pub fn all_ends(script: &mut Script) {
    script.send_all([Record::Reset, hole(-2, 950)]);
    script.send_all((0..47).map(|i| put_from_to(has((i % 4) as u8, 1), 20 * i, 20 * i + 10)));
    refill(script);
    script.send_all([
        put(has(5, 5), 5),
        put_from_to(has(5, 5), 6, 7),
        put(has(5, 5), 948),
        spans(0, 1),
        spans(0, EVERY),
        put(has(5, 5), 950),
        put(has(5, 5), 951),
        put(has(5, 5), -3),
        put(has(5, 5), 0),
        take(has(5, 5), 5),
        put(has(5, 5), 950),
        query(has(5, 5), 950),
        query(has(5, 5), 951),
        spans(5, 5),
    ]);
}

/// A contradiction is told for questions outside too; the span buffer is kept.
pub fn contradiction(script: &mut Script) {
    script.send_all([Record::Reset, hole(10, 30), label(whole(ABOVE), 1, 2)]);
    script.send_all([both(2, 3, NEVER), put(has(4, 1), 20), put(has(4, 3), 25)]);
    let asked = [i64::MIN, 9, 10, 31].map(|depth| query(has(4, 2), depth));
    script.send_all(asked);
    script.send(&put(has(4, 3), 10));
    script.fill(Part::Spans, 81);
    script.send_all(asked);
    script.send_all([spans(4, 2), query(link(0, 0, 0), i64::MAX)]);
    script.send_all([take(has(4, 3), 10), spans(4, 2)]);
    script.send_all(asked);
}

/// Bytes of the hole from 10 to 30, around a mark from 15 to 20, that no run of records leads to,
/// and some that are another hole.
const POKES: [(usize, u8); 18] = [
    (HOLE_AT, 0),
    (HOLE_AT, 2),
    (HOLE_AT, 255),
    (HOLE_AT + 1, 1),
    (HOLE_ENDS_AT, 15),
    (HOLE_ENDS_AT, 16),
    (HOLE_ENDS_AT, 31),
    (HOLE_ENDS_AT + 1, 1),
    (HOLE_ENDS_AT + 2, 4),
    (HOLE_ENDS_AT + 3, 255),
    (HOLE_ENDS_AT + 4, 20),
    (HOLE_ENDS_AT + 4, 19),
    (HOLE_ENDS_AT + 4, 9),
    (HOLE_ENDS_AT + 5, 1),
    (HOLE_ENDS_AT + 6, 3),
    (HOLE_ENDS_AT + 6, 4),
    (HOLE_ENDS_AT + 7, 128),
    (HOLE_ENDS_AT + 8, 1),
];

/// The block's bytes 6 to 15 with a hole and without one.
pub fn bytes_of_the_block(script: &mut Script) {
    script.send_all([Record::Reset, hole(10, 30), put_from_to(has(0, 1), 15, 20)]);
    refill(script);
    for (place, value) in POKES {
        script.spoiled(place, value, &spans(0, EVERY));
    }
    script.spoiled(HOLE_AT, 2, &Record::Reset);
    script.spoiled_all(&[(HOLE_ENDS_AT, 30), (HOLE_ENDS_AT + 4, 10)], &spans(0, 1));
    script.spoiled(SIZE, 255, &spans(0, 1));
    script.poke(HOLE_AT, 2);
    script.call(&WHOLE, &[]);
    script.spans(&WHOLE, 0, EVERY);
    script.poke(HOLE_AT, 1);
    script.spans(&WHOLE, 0, EVERY);
    // Without a mark, and without a hole.
    script.send(&take_from_to(has(0, 1), 15, 20));
    script.spoiled(HOLE_ENDS_AT, 31, &spans(0, EVERY));
    script.spoiled(HOLE_ENDS_AT, 30, &spans(0, EVERY));
    script.send(&Record::Reset);
    script.spoiled(HOLE_ENDS_AT, 1, &spans(0, EVERY));
    script.spoiled(HOLE_ENDS_AT + 7, 1, &spans(0, EVERY));
    script.spoiled(HOLE_AT, 1, &spans(0, EVERY));
    script.spoiled(HOLE_AT, 2, &spans(0, EVERY));
}

/// A hole poked into the empty block is as good as given.
pub fn poked_hole(script: &mut Script) {
    script.fill(Part::Block, 0);
    patterns(script);
    script.poke(HOLE_AT, 1);
    script.poke(HOLE_ENDS_AT + 4, 9);
    script.call(&WHOLE, &[]);
    script.send_all([put(has(0, 1), 10), put(has(0, 1), 9), put(has(0, 1), -1)]);
    script.send_all([spans(0, EVERY), hole(0, 9), Record::Reset, spans(0, EVERY)]);
}
