//! Two ways of counting a distance at the edges, as steps of the same script.

use crate::cases::{patterns, refill, whole_rules};
use crate::script::{Part, Script, WHOLE};
use model::block::{COUNTING_AT, HOLE_AT, PROFILE_AT, SIZE};
use model::frame::{bytes, framed};
use model::service::Lent;
use model::short::*;
use model::terms::*;

/// Marks of label 1 on item 0 that are 19 apart, and the rule by which the counting shows.
fn decided_by_counting(script: &mut Script) {
    script.send_all([104, 123].map(|depth| put(has(0, 1), depth)));
    script.send_all([label(within(19), 1, 2), spans(0, 2)]);
}

/// Each step from one counting to the other and to itself, without and with marks. Kind 17 changes
/// its byte and RESET clears it; tail, tables and span buffer stay as they are.
pub fn setting(script: &mut Script) {
    patterns(script);
    script.send_all([1, 1, 2, 2, 1, 2].map(counting));
    script.send(&Record::Reset);
    script.send_all([put(has(0, 1), 5), counting(2), counting(1), counting(2)]);
    script.send_all([Record::Reset, counting(2), Record::Reset]);
    decided_by_counting(script);
    script.send_all([Record::Reset, counting(2)]);
    decided_by_counting(script);
    script.send(&Record::Reset);
    decided_by_counting(script);
    script.send(&Record::Reset);
    // The least that is enough, and more records behind.
    script.call(&Lent::EXACT, &bytes(&counting(2)));
    script.call(&WHOLE, &[bytes(&counting(1)), bytes(&counting(2))].concat());
    script.call(&Lent::EXACT, &[]);
}

/// Kind 17 by every number but 15 that it can be refused with, and kinds that are none.
fn refused_each(script: &mut Script) {
    let short = Lent {
        labels: Lent::EXACT.labels - 1,
        ..WHOLE
    };
    let inputs = [
        framed(17, &[]),
        framed(17, &[2, 0]),
        framed(17, &[2, 0, 0, 0]),
        framed(17, &[3, 3]),
        framed(18, &[2]),
        framed(0x0111, &[2]),
        vec![3, 0, 17, 0],
        vec![4, 0, 17, 0, 2],
        vec![1, 0, 17, 0, 2],
        vec![3, 0, 17],
    ];
    script.call(&short, &bytes(&counting(2)));
    script.call(&short, &bytes(&counting(3)));
    script.spoiled(PROFILE_AT, 2, &counting(2));
    inputs.iter().for_each(|input| {
        script.call(&WHOLE, input);
    });
    script.send_all([0, 3, 4, 127, 128, 255].map(counting));
}

/// The same without a rule and with one, and then 15, by either counting. All memory stays as it
/// was.
pub fn refused(script: &mut Script) {
    for value in [1, 2] {
        script.send_all([Record::Reset, put(has(0, 1), 5), counting(value)]);
        refill(script);
        refused_each(script);
        script.send(&label(whole(BETWEEN), 1, 2));
        refused_each(script);
        script.send_all([1, 2].map(counting));
        script.call(&Lent::EXACT, &bytes(&counting(value)));
        script.send_all([take(has(0, 1), 5), counting(1), counting(2)]);
    }
}

/// The worked cases and both neighbours of each distance, by either counting.
pub fn operators(script: &mut Script) {
    for value in [1, 2] {
        script.send_all([Record::Reset, counting(value)]);
        script.send_all([1, 2, 3, 4, 5].map(|n| label(within(n), 1, 1 + n as u8)));
        script.send_all([9, 10, 11].map(|n| label(within(n), 10, 2 + n as u8)));
        script.send_all([18, 19, 20].map(|n| label(within(n), 20, 3 + n as u8)));
        script.send_all(whole_rules(20, 30));
        script.send_all([-3, -2, 0, 4].map(|depth| put(has(0, 1), depth)));
        script.send_all([put_from_to(has(0, 10), 100, 110), put(has(0, 10), 120)]);
        script.send_all([104, 123].map(|depth| put(has(0, 20), depth)));
        let concluded = (2..7).chain(11..14).chain(21..24).chain(30..34);
        script.send_all(concluded.map(|label| spans(0, label)));
        script.send_all([103, 104, 105, 122, 123, 124].map(|depth| query(has(0, 22), depth)));
        script.spans(&Lent::EXACT, 0, 22);
        script.send_all([1, 2, 3].map(counting));
    }
}

/// From the shallowest mark to the deepest; n goes on to 300,000 by either counting.
pub fn widest_gap(script: &mut Script) {
    for value in [1, 2] {
        script.send_all([Record::Reset, counting(value)]);
        script.send_all([put(has(0, 1), SHALLOWEST), put(has(0, 1), DEEPEST)]);
        let each = (2..).zip([209_999, 210_000, 210_001, MAX_N, MAX_N + 1]);
        script.send_all(each.map(|(to, n)| label(within(n), 1, to)));
        script.send_all((2..7).map(|label| spans(0, label)));
        script.send(&query(has(0, 3), 0));
    }
}

/// LINKRULE and what follows from it, by either counting.
pub fn links(script: &mut Script) {
    for value in [1, 2] {
        script.send(&Record::Reset);
        script.send_all(links_5_apart(value));
        script.send_all([
            put_from_to(link(0, 0, 1), 25, 30),
            query(link(0, 1, 1), 12),
            query(link(0, 0, 1), 12),
            query(link(1, 1, 0), 12),
            spans(0, 4),
            spans(0, 5),
        ]);
    }
}

/// What is filled by the new counting alone meets a mark; the span buffer is kept.
pub fn contradiction(script: &mut Script) {
    for value in [1, 2] {
        script.send_all([Record::Reset, counting(value), both(2, 3, NEVER)]);
        decided_by_counting(script);
        script.fill(Part::Spans, 80);
        script.send_all([put(has(0, 3), 110), spans(0, 2), query(has(0, 3), 110)]);
        script.send_all([take(has(0, 3), 110), spans(0, 2)]);
    }
}

/// Byte 4 on the empty block and with rules and marks, by either counting: 0 and 1 are good blocks
/// and decide the question, any other value is none, for records, end and the span call.
pub fn byte_of_the_block(script: &mut Script) {
    for value in [1, 2] {
        script.send(&Record::Reset);
        refill(script);
        script.send(&counting(value));
        pokes(script, &counting(1));
        decided_by_counting(script);
        pokes(script, &spans(0, 2));
        pokes(script, &counting(2));
        pokes(script, &put(has(0, 1), 104));
    }
    for value in [1, 2, 255] {
        script.poke(COUNTING_AT, value);
        script.call(&WHOLE, &[]);
        script.spans(&WHOLE, 0, 2);
        script.send(&Record::Reset);
    }
    script.poke(COUNTING_AT, 0);
    script.send_all([Record::Reset, spans(0, 2)]);
}

/// The record with byte 4 poked to each of these; only 0 and 1 are countings.
fn pokes(script: &mut Script, input: &Record) {
    for value in [0, 1, 2, 3, 128, 255] {
        script.spoiled(COUNTING_AT, value, input);
    }
}

/// The new counting poked into the empty block is as good as set; the settings behind it are zero.
pub fn poked_counting(script: &mut Script) {
    script.fill(Part::Block, 0);
    patterns(script);
    script.poke(COUNTING_AT, 1);
    script.call(&WHOLE, &[]);
    decided_by_counting(script);
    refill(script);
    script.spoiled(PROFILE_AT, 2, &counting(2));
    for at in HOLE_AT..32 {
        script.spoiled(at, 1, &counting(2));
    }
    script.spoiled(SIZE, 255, &spans(0, 2));
    script.send_all([counting(1), spans(0, 2), Record::Reset, spans(0, 2)]);
}
