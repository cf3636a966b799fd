//! A shift of all marks and the hole at the edges, as steps of the same script. It has room for few
//! steps more, so these are short: 65,536 bytes are all that the test program takes.

use crate::cases::{patterns, refill};
use crate::script::{Script, WHOLE};
use model::block::{MARKS_AT, PROFILE_AT, SIZE};
use model::frame::{bytes, framed};
use model::service::Lent;
use model::short::*;
use model::terms::*;

/// With nothing to move every shift is done; then with a rule, with a hole and with a mark.
pub fn nothing(script: &mut Script) {
    patterns(script);
    script.send_all([0, 1, i32::MIN, i32::MAX].map(shift));
    script.send_all([RULE, shift(i32::MIN), hole(0, 9), shift(i32::MIN)]);
    script.send_all([Record::Reset, shift(i32::MAX), put(has(0, 1), 7)]);
    script.send_all([shift(i32::MAX), take(has(0, 1), 7), shift(i32::MAX)]);
}

/// There and back with all settings, rules and marks of each sort. Kind 20 changes the ends of marks
/// and hole; tail, tables and span buffer stay as they are.
pub fn moving(script: &mut Script) {
    script.send_all([Record::Reset, counting(2), hole(-5, 140), Record::Profile]);
    script.send_all([label(within(19), 1, 2), put_from_to(link(0, 7, 1), -5, 140)]);
    script.send_all([104, 123].map(|depth| put(has(0, 1), depth)));
    refill(script);
    script.send_all([shift(25), shift(-250), shift(0), shift(120)]);
    script.spans(&WHOLE, 0, 2);
    script.send_all([query(has(0, 2), 17), query(has(0, 2), 19)]);
    script.send_all([shift(105), spans(0, 2), take(has(0, 1), 123), shift(-1)]);
    // The least that is enough, and more records behind.
    script.call(&Lent::EXACT, &bytes(&shift(3)));
    script.call(&WHOLE, &[bytes(&shift(2)), bytes(&shift(5))].concat());
    script.spans(&Lent::EXACT, 5, EVERY);
}

/// Up to the shallowest depth and down to the deepest, one more each, and numbers far beyond.
pub fn ends_of_the_range(script: &mut Script) {
    script.send_all([Record::Reset, put_from_to(link(2, 0, 3), 0, 10)]);
    script.send_all([-10_001, 199_991, -10_000, -1, 209_991, 209_990, 1].map(shift));
    script.send_all([i32::MIN, i32::MAX, -210_001, -209_990].map(shift));
    script.send(&query(link(2, 0, 3), -10_000));
    script.send_all([put(has(0, 1), DEEPEST), shift(1), shift(-1), shift(0)]);
}

/// One of three marks would leave, the first, the one between or the last: none moves.
pub fn all_or_none(script: &mut Script) {
    for outermost in 1..4 {
        script.send(&Record::Reset);
        let depth = |item| if item == outermost { -9_000 } else { 9_000 };
        script.send_all([1, 2, 3].map(|item| put(has(item, 1), depth(item))));
        script.send_all([shift(-1_001), shift(-1_000), shift(1_000)]);
    }
}

/// The hole alone, then with a mark at its bottom: the hole's top leaves first. Marks go by where it
/// lies now, and while one is held no other is given.
pub fn with_a_hole(script: &mut Script) {
    script.send_all([Record::Reset, hole(0, 3_000)]);
    script.send_all([-10_001, 197_001, 197_000, -197_025].map(shift));
    script.send_all([put(has(0, 1), 2_975), shift(-9_976), shift(25)]);
    script.send_all([-1, 0, 3_000, 3_001].map(|depth| put(has(0, 3), depth)));
    script.send_all([hole(0, 3_000), spans(0, 3)]);
    script.spans(&WHOLE, 0, EVERY);
}

/// Missing ends are still missing, and the item of a contradiction is the same.
pub fn questions(script: &mut Script) {
    script.send_all([Record::Reset, label(whole(ABOVE), 1, 2)]);
    script.send_all([label(whole(BELOW), 1, 3), both(2, 4, NEVER)]);
    script.send_all([put_from_to(has(0, 1), 10, 20), put(link(0, 5, 9), 0)]);
    for by in [-15, 9] {
        script.send(&shift(by));
        (1..4).for_each(|label| script.spans(&WHOLE, 0, label));
        script.send(&query(has(0, 2), i64::MIN));
    }
    script.send_all([put(has(0, 4), 14), shift(-14), query(has(9, 1), 1)]);
    script.spans(&WHOLE, 9, EVERY);
    script.send_all([take(has(0, 4), 0), query(has(0, 2), 0), query(has(0, 2), 1)]);
}

/// Kind 20 by every number but 8 that it can be refused with, and kinds that are none.
pub fn refused(script: &mut Script) {
    let short = Lent {
        labels: Lent::EXACT.labels - 1,
        ..WHOLE
    };
    refill(script);
    script.call(&short, &bytes(&shift(i32::MIN)));
    script.spoiled(PROFILE_AT, 2, &shift(1));
    // A bottom at 200,001 is in a block that no run of records leads to, and no shift mends it.
    let below = [(8, 0x41), (9, 0x0d), (10, 0x03)].map(|(at, byte)| (MARKS_AT + at, byte));
    script.spoiled_all(&below, &shift(-1));
    let inputs: [&[u8]; 9] = [
        &framed(20, &[]),
        &framed(20, &[1, 0, 0]),
        &framed(20, &[1, 0, 0, 0, 0]),
        &framed(20, &[1, 0, 0, 0, 0, 0, 0, 0]),
        &framed(0x0114, &[1, 0, 0, 0]),
        &framed(19, &[1, 0, 0, 0]),
        &framed(22, &[1, 0, 0, 0]),
        &[6, 0, 20, 0, 1, 0, 0],
        &[1, 0, 20, 0, 1, 0, 0, 0],
    ];
    inputs.into_iter().for_each(|input| {
        script.call(&WHOLE, input);
    });
    // The tail does not count.
    script.spoiled(SIZE, 255, &shift(1));
}
