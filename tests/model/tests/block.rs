//! Lent memory: the block's encoding, lists at their limits, and the order of refusals.

use model::block::{
    decode, encode, COUNTING_AT, HOLE_AT, HOLE_ENDS_AT, MARKS_AT, MARK_PLACE, PROFILE_AT, RULES_AT,
    SIZE,
};
use model::frame::{bytes, framed};
use model::held::Held;
use model::service::{record, spans_of, Lent, Memory};
use model::short::{from_to, has, link};
use model::tables::representatives;
use model::terms::*;

fn mark(label: u8, depth: i32) -> Mark {
    Mark::point(has(0, label), depth)
}

/// The marks alone, without rules.
fn marked(marks: impl IntoIterator<Item = Mark>) -> Held {
    Held {
        marks: marks.into_iter().collect(),
        ..Held::default()
    }
}

fn rule(number: usize) -> Rule {
    let (a, b) = ((number / 60) as u8, (number % 60) as u8);
    Rule::Both { a, b, c: 1 }
}

/// Both lists at their limits, with all 96 depths taken.
fn full() -> Held {
    let marks = (0..256).map(|i| mark(1 + (i / 96) as u8, i % 96));
    Held {
        rules: (0..128).map(rule).collect(),
        marks: marks.collect(),
        ..Held::default()
    }
}

/// The same with the profile on, and another rule in place of the one with EVERY twice.
fn printed() -> Held {
    Held {
        rules: (1..129).map(rule).collect(),
        profile: true,
        ..full()
    }
}

fn memory_of(held: &Held) -> Memory {
    let mut memory = Memory::zeros(Lent::EXACT);
    memory.block = encode(held);
    memory
}

fn call(held: &Held, input: &Record) -> Answer {
    record(&mut memory_of(held), &Lent::EXACT, &bytes(input)).0
}

#[test]
fn lists_at_their_limits() {
    let held = full();
    let put = |label, depth| call(&held, &Record::Put(mark(label, depth)));
    assert_eq!(put(1, 0), Answer::Refused(9));
    assert_eq!(put(9, 0), Answer::Refused(11));
    assert_eq!(put(9, 5_000), Answer::Refused(11));
    let stretch = |top, bottom| call(&held, &Record::Put(from_to(has(0, 1), top, bottom)));
    assert_eq!(stretch(0, 1), Answer::Refused(11));
    assert_eq!(stretch(1, 0), Answer::Refused(14));
    assert_eq!(stretch(DEEPEST + 1, 0), Answer::Refused(8));
    assert_eq!(call(&held, &Record::Rule(rule(0))), Answer::Refused(9));
    assert_eq!(call(&held, &Record::Rule(rule(300))), Answer::Refused(11));
    let printed = printed();
    assert_eq!(call(&printed, &Record::Rule(rule(1))), Answer::Refused(9));
    assert_eq!(call(&printed, &Record::Rule(rule(0))), Answer::Refused(20));
    assert_eq!(
        call(&printed, &Record::Rule(rule(300))),
        Answer::Refused(11)
    );
}

#[test]
fn a_depth_is_free_with_its_last_mark() {
    let mut held = full();
    held.marks.truncate(96);
    let put = Record::Put(mark(1, 5_000));
    assert_eq!(call(&held, &put), Answer::Refused(12));
    held.accept(&Record::Take(mark(1, 95)));
    assert_eq!(call(&held, &put), Answer::Done);
}

#[test]
fn good_blocks_are_read_back() {
    let held = full();
    assert_eq!(decode(&encode(&held)), Some(held));
    assert_eq!(decode(&[0; SIZE]), Some(Held::default()));
    let stretches = marked((0..48).map(|i| from_to(has(3, 5), 7 * i - 100, 7 * i - 96)));
    assert_eq!(decode(&encode(&stretches)), Some(stretches));
}

/// Every byte of a block with one mark of each sort, a point among them.
#[test]
fn places_of_the_block() {
    let held = marked([
        from_to(has(3, 7), SHALLOWEST, DEEPEST),
        from_to(link(2, 5, 15), -1, 256),
        mark(62, -2),
    ]);
    let places = [
        [6, 3, 7, 0, 0xf0, 0xd8, 0xff, 0xff, 0x40, 0x0d, 0x03, 0x00],
        [7, 2, 5, 15, 0xff, 0xff, 0xff, 0xff, 0x00, 0x01, 0x00, 0x00],
        [6, 0, 62, 0, 0xfe, 0xff, 0xff, 0xff, 0xfe, 0xff, 0xff, 0xff],
    ];
    let mut block = [0; 4_128];
    block[2] = 3;
    block[1_056..1_092].copy_from_slice(&places.concat());
    assert_eq!(encode(&held), block);
    assert_eq!(decode(&block), Some(held));
}

/// Byte 4 is 0 or 1, whatever else is held, and its two values are different states.
#[test]
fn the_counting_in_the_block() {
    for held in [Held::default(), full()] {
        let with = |value| {
            let mut block = encode(&held);
            block[4] = value;
            decode(&block)
        };
        let renewed = Held {
            counting: Counting::New,
            ..held.clone()
        };
        assert_eq!(encode(&renewed)[4], 1);
        assert_eq!(with(0), Some(held.clone()));
        assert_eq!(with(1), Some(renewed));
        assert!((2..=255).all(|value| with(value).is_none()));
    }
}

/// Byte 5 is 0 or 1, and with 1 there all rules are in the profile.
#[test]
fn the_profile_in_the_block() {
    let with = |held: &Held, value| {
        let mut block = encode(held);
        block[5] = value;
        decode(&block)
    };
    let on = Held {
        profile: true,
        ..Held::default()
    };
    for printed in [on, printed()] {
        let off = Held {
            profile: false,
            ..printed.clone()
        };
        assert_eq!([encode(&off)[5], encode(&printed)[5]], [0, 1]);
        assert_eq!(with(&printed, 0), Some(off));
        assert!((2..=255).all(|value| with(&printed, value).is_none()));
        assert_eq!(with(&printed, 1), Some(printed));
    }
    assert_eq!(with(&full(), 0), Some(full()));
    assert!((1..=255).all(|value| with(&full(), value).is_none()));
}

/// A byte of the second of two stretches that no record leads to.
#[test]
fn bad_bytes_of_a_place_are_seen() {
    let held = marked([from_to(has(0, 1), 5, 9), from_to(has(0, 1), 5, 8)]);
    let place = MARKS_AT + MARK_PLACE;
    let bad = [
        (0, 13),
        (0, 0),
        (2, NEVER),
        (3, 1),
        (4, 9),
        (6, 4),
        (7, 0x80),
        (8, 4),
        (8, 9),
        (10, 4),
        (11, 0x80),
        (12, 6),
    ];
    let changed = bad.map(|(at, value)| {
        let mut block = encode(&held);
        block[place + at] = value;
        decode(&block)
    });
    assert!(changed.iter().all(Option::is_none));
}

#[test]
fn stray_bytes_are_seen() {
    let mut held = full();
    held.rules.pop();
    held.marks.pop();
    let stray = [
        PROFILE_AT,
        HOLE_AT + 1,
        HOLE_ENDS_AT,
        HOLE_ENDS_AT + 8,
        31,
        RULES_AT + 7,
        MARKS_AT - 1,
        MARKS_AT + 3,
        SIZE - 12,
        SIZE - 1,
    ];
    let changed = stray.map(|at| {
        let mut block = encode(&held);
        block[at] += 1;
        decode(&block)
    });
    assert!(changed.iter().all(Option::is_none));
}

#[test]
fn unreachable_lists_are_seen() {
    let double = Held {
        rules: vec![rule(0), rule(0)],
        ..Held::default()
    };
    let unprinted = Held {
        rules: vec![rule(1), rule(0)],
        profile: true,
        ..Held::default()
    };
    let lists = [
        double,
        unprinted,
        marked((0..97).map(|depth| mark(1, depth))),
        // 48 stretches with 96 ends, and a point.
        marked((0..49).map(|i| from_to(has(0, 1), 9 * i, 9 * i + i32::from(i < 48)))),
        marked([mark(EVERY, 0)]),
        marked([from_to(has(0, 1), 8, 7)]),
        marked([from_to(has(0, 1), 8, DEEPEST + 1)]),
        marked([from_to(link(0, 0, 0), SHALLOWEST - 1, 8)]),
        marked([mark(1, 3), from_to(has(0, 1), 3, 3)]),
    ];
    assert!(lists.iter().all(|held| decode(&encode(held)).is_none()));
}

#[test]
fn first_that_applies() {
    let mut memory = memory_of(&full());
    let short = Lent {
        spans: 193,
        ..Lent::EXACT
    };
    let mut ask = |lent, input: &[u8]| record(&mut memory, lent, input);
    assert_eq!(ask(&short, &[]), (Answer::Refused(1), 0));
    assert_eq!(ask(&Lent::EXACT, &[]), (Answer::End, 0));
    assert_eq!(ask(&Lent::EXACT, &[2, 0, 1]), (Answer::Refused(3), 3));
    assert_eq!(
        ask(&Lent::EXACT, &framed(0x101, &[0; 9])),
        (Answer::Refused(4), 13)
    );
    assert_eq!(ask(&Lent::EXACT, &framed(1, &[0])), (Answer::Refused(5), 5));
    let both = framed(2, &[9, 0, 0, 0, 0, 63, 1]);
    assert_eq!(ask(&Lent::EXACT, &both), (Answer::Refused(6), 11));
}

#[test]
fn a_reset_cannot_repair_a_block() {
    let mut memory = memory_of(&full());
    let reset = bytes(&Record::Reset);
    for (at, value) in [(COUNTING_AT, 2), (PROFILE_AT, 2), (PROFILE_AT, 1)] {
        let good = memory.block[at];
        memory.block[at] = value;
        let before = memory.clone();
        let said = record(&mut memory, &Lent::EXACT, &reset);
        assert_eq!(said, (Answer::Refused(2), 0));
        assert_eq!(memory, before);
        memory.block[at] = good;
    }
}

#[test]
fn the_span_call_takes_any_number() {
    let mut memory = memory_of(&full());
    let mut ask = |item, label| spans_of(&mut memory, &Lent::EXACT, item, label);
    assert_eq!(ask(16, 0), Answer::Refused(6));
    assert_eq!(ask(0, 64), Answer::Refused(6));
    assert_eq!(ask(256, 320), Answer::Refused(6));
    assert_eq!(ask(15, 0), Answer::Spans(1));
}

#[test]
fn pieces_of_the_line() {
    let at = |depths: &[i32]| representatives(&marked(depths.iter().map(|&d| mark(1, d))));
    assert_eq!(at(&[]), [0]);
    assert_eq!(at(&[6, 5]), [4, 5, 6, 7]);
    assert_eq!(at(&[5, 9]), [4, 5, 6, 9, 10]);
    let spread: Vec<i32> = (0..96).map(|i| 2 * i).collect();
    assert_eq!(at(&spread).len(), 193);
}

/// The ends are pieces; what lies inside a stretch is one piece, unless another mark ends there.
#[test]
fn pieces_of_stretches() {
    let at = |ends: &[(i32, i32)]| {
        representatives(&marked(ends.iter().map(|&(t, b)| from_to(has(0, 1), t, b))))
    };
    assert_eq!(at(&[(100, 110)]), [99, 100, 101, 110, 111]);
    assert_eq!(at(&[(5, 6)]), [4, 5, 6, 7]);
    assert_eq!(at(&[(10, 20), (21, 30)]), [9, 10, 11, 20, 21, 22, 30, 31]);
    assert_eq!(at(&[(10, 30), (10, 20)]), [9, 10, 11, 20, 21, 30, 31]);
    let spread: Vec<_> = (0..48).map(|i| (4 * i, 4 * i + 2)).collect();
    assert_eq!(at(&spread).len(), 193);
}
