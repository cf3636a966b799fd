//! A hole with two ends: worked cases, the record that gives it, refusals 16 and 17, and RESET.

use model::block::{decode, encode};
use model::frame::{bytes, framed};
use model::held::Held;
use model::listing::{self, answers_to as answers, last_answer};
use model::service::{record, Lent, Memory};
use model::short::*;
use model::tables::{representatives, PIECES};
use model::terms::*;

/// The last answer, in the hole from 10 to 30.
fn last(records: &[Record]) -> String {
    last_answer(&[&[hole(10, 30)], records].concat())
}

/// What the operator gives in the hole from 10 to 30 on a mark of label 1.
fn given(op: Operator, top: i32, bottom: i32) -> String {
    let mark = put_from_to(has(0, 1), top, bottom);
    last(&[label(op, 1, 2), mark, spans(0, 2)])
}

#[test]
fn operators_in_a_hole() {
    assert_eq!(given(within(5), 15, 20), "spans 1 15:20");
    assert_eq!(given(whole(BETWEEN), 15, 20), "spans 1 15:20");
    assert_eq!(given(whole(ABOVE), 15, 20), "spans 1 10:20");
    assert_eq!(given(whole(BELOW), 15, 20), "spans 1 15:30");
    assert_eq!(given(whole(ANYWHERE), 15, 20), "spans 1 10:30");
    for code in BETWEEN..=ANYWHERE {
        assert_eq!(given(whole(code), 10, 30), "spans 1 10:30");
    }
    assert_eq!(given(whole(ABOVE), 10, 10), "spans 1 10:10");
    assert_eq!(given(whole(BELOW), 30, 30), "spans 1 30:30");
}

/// Nothing marked is nothing given, and EVERY fills the hole alone.
#[test]
fn a_hole_without_marks() {
    assert_eq!(
        last(&[label(whole(ANYWHERE), 1, 2), spans(0, 2)]),
        "spans 0"
    );
    assert_eq!(last(&[spans(15, EVERY)]), "spans 1 10:30");
    let learned = label(whole(ABOVE), EVERY, 4);
    assert_eq!(last(&[learned, spans(3, 4)]), "spans 1 10:30");
}

#[test]
fn questions_at_the_ends_and_outside() {
    let asked = [i64::MIN, -(1 << 31), 9, 10, 30, 31, 1 << 32, i64::MAX];
    let expected = ["no", "no", "no", "yes", "yes", "no", "no", "no"];
    let records = |fact| [&[hole(10, 30)], &asked.map(|d| query(fact, d))[..]].concat();
    assert_eq!(answers(&records(has(0, EVERY)))[1..], expected);
    let marked = [
        put_from_to(has(2, 1), 10, 30),
        put_from_to(link(2, 1, 3), 10, 30),
    ];
    for mark in marked {
        let Record::Put(Mark { fact, .. }) = mark else {
            unreachable!()
        };
        let mut records = records(fact);
        records.insert(1, mark);
        assert_eq!(answers(&records)[2..], expected);
    }
}

#[test]
fn contradiction_goes_first() {
    let rules = [label(within(1), EVERY, 1), label(within(1), 1, NEVER)];
    for depth in [i64::MIN, 9, 10, 31] {
        let asked = [rules[0], rules[1], query(has(3, 5), depth)];
        assert_eq!(last(&asked), "contradiction 3");
    }
    assert_eq!(last(&[rules[0], query(has(3, 5), 31)]), "no");
}

/// Top, bottom and the number; both ends count, and 8 goes before 14.
const TURNED_AWAY: [(i32, i32, u32); 9] = [
    (SHALLOWEST - 1, 5, 8),
    (5, DEEPEST + 1, 8),
    (DEEPEST + 1, 5, 8),
    (5, SHALLOWEST - 1, 8),
    (DEEPEST + 2, DEEPEST + 1, 8),
    (i32::MAX, i32::MIN, 8),
    (i32::MIN, i32::MAX, 8),
    (6, 5, 14),
    (DEEPEST, SHALLOWEST, 14),
];

/// 8 and 14 go before 17, which is given for any hole while a mark is held.
#[test]
fn order_of_the_holes_refusals() {
    for (top, bottom, number) in TURNED_AWAY {
        let refused = format!("refused {number}");
        let asked = hole(top, bottom);
        assert_eq!(answers(&[asked]), [refused.as_str()]);
        assert_eq!(last(&[asked]), refused);
        assert_eq!(last(&[put(has(0, 1), 10), asked]), refused);
    }
    for asked in [hole(10, 30), hole(9, 31), hole(10, 10)] {
        assert_eq!(last(&[put(has(0, 1), 10), asked]), "refused 17");
        assert_eq!(last(&[put(link(0, 0, 0), 10), asked]), "refused 17");
        assert_eq!(last(&[RULE, asked]), "done");
    }
    assert_eq!(answers(&[put(has(0, 1), 5), hole(0, 9)])[1], "refused 17");
}

/// The number for a mark put into the hole from 10 to 30, or none.
#[test]
fn order_of_a_marks_refusals() {
    let cases = [
        ((0, 10, 30), "done"),
        ((0, 10, 10), "done"),
        ((0, 30, 30), "done"),
        ((0, 9, 9), "refused 16"),
        ((0, 31, 31), "refused 16"),
        ((0, 9, 20), "refused 16"),
        ((0, 20, 31), "refused 16"),
        ((0, 9, 31), "refused 16"),
        ((0, -50, -40), "refused 16"),
        ((0, 40, 50), "refused 16"),
        ((0, SHALLOWEST, DEEPEST), "refused 16"),
        ((0, 31, 30), "refused 14"),
        ((0, 31, 9), "refused 14"),
        ((0, 33, 32), "refused 14"),
        ((0, 8, 7), "refused 14"),
        ((0, 9, DEEPEST + 1), "refused 8"),
        ((0, DEEPEST + 1, 9), "refused 8"),
        ((16, 9, 31), "refused 6"),
        ((16, 31, 9), "refused 6"),
    ];
    for ((item, top, bottom), expected) in cases {
        for fact in [has(item, 1), link(item, 0, 0), link(0, 0, item)] {
            let said = last(&[put_from_to(fact, top, bottom)]);
            assert_eq!(said, expected, "{fact:?} {top} {bottom}");
            let taken = match expected {
                "done" | "refused 16" => "refused 10",
                other => other,
            };
            assert_eq!(last(&[take_from_to(fact, top, bottom)]), taken);
        }
    }
}

/// 16 goes before 11 and 12; the hole's ends are no marked depths.
#[test]
fn lists_at_their_limits() {
    let points = |count: i32| (0..count).map(|i| put(has(0, 1), 5 * i));
    let at = |count, more: &[Record]| {
        let records = [hole(-1, 479)].into_iter().chain(points(count));
        let records: Vec<_> = records.chain(more.iter().copied()).collect();
        last_answer(&records)
    };
    assert_eq!(at(95, &[put(has(0, 1), 477)]), "done");
    assert_eq!(at(94, &[put_from_to(has(0, 1), 477, 478)]), "done");
    assert_eq!(at(95, &[put_from_to(has(0, 1), 477, 478)]), "refused 12");
    assert_eq!(at(96, &[put(has(0, 1), 479)]), "refused 12");
    assert_eq!(at(96, &[put(has(0, 1), 480)]), "refused 16");
    assert_eq!(at(96, &[put(has(0, 1), 0)]), "refused 9");
    let all = pairs().map(|(item, turn)| put(has(item, 1 + turn), 5));
    let full: Vec<_> = all.collect();
    let with = |mark: Record| at(0, &[&full[..], &[mark]].concat());
    assert_eq!(with(put(has(0, 40), 6)), "refused 11");
    assert_eq!(with(put(has(0, 40), 480)), "refused 16");
    assert_eq!(with(put(has(0, 1), 5)), "refused 9");
}

/// It stays without its marks until another one or RESET.
#[test]
fn how_long_a_hole_stays() {
    let every = spans(0, EVERY);
    let mark = [put(has(0, 1), 10), take(has(0, 1), 10)];
    assert_eq!(last(&[mark[0], mark[1], every]), "spans 1 10:30");
    assert_eq!(last(&[mark[0], mark[1], put(has(0, 1), 9)]), "refused 16");
    assert_eq!(last(&[mark[0], mark[1], hole(8, 9), every]), "spans 1 8:9");
    assert_eq!(last(&[hole(7, 7), every]), "spans 1 7:7");
    assert_eq!(last(&[hole(8, 7), every]), "spans 1 10:30");
    assert_eq!(last(&[Record::Reset, every]), "spans 1 *:*");
    assert_eq!(last(&[mark[0], Record::Reset, every]), "spans 1 *:*");
}

#[test]
fn lengths_and_kinds() {
    let said = |kind, body: &[u8]| listing::answers(&framed(kind, body));
    assert_eq!(said(18, &[0; 8]), ["done"]);
    for length in [0, 4, 7, 9, 12] {
        assert_eq!(said(18, &vec![0; length]), ["refused 5"]);
    }
    assert_eq!(said(0x0112, &[0; 8]), ["refused 4"]);
    let ends = [0xfe, 0xff, 0xff, 0xff, 3, 1, 0, 0];
    assert_eq!(bytes(&hole(-2, 259)), [&[10, 0, 18, 0][..], &ends].concat());
}

/// Kind 18 changes the hole's bytes and nothing else; RESET clears them and leaves the tail.
#[test]
fn what_is_written() {
    let empty = after(&[]);
    let mut set = empty.clone();
    set.block[6] = 1;
    set.block[8..16].copy_from_slice(&[0xf0, 0xd8, 0xff, 0xff, 0x40, 0x0d, 0x03, 0]);
    let widest = hole(SHALLOWEST, DEEPEST);
    assert_eq!(after(&[widest]), set);
    assert_eq!(after(&[hole(1, 2), widest]), set);
    assert_eq!(after(&[widest, Record::Reset]), empty);
    assert_eq!(after(&[counting(2), RULE, widest, Record::Reset]), empty);
    for refused in [hole(2, 1), hole(0, DEEPEST + 1)] {
        assert_eq!(after(&[widest, refused]), set);
        assert_eq!(after(&[refused]), empty);
    }
    let marked = after(&[widest, put(has(0, 1), 5)]);
    assert_eq!(after(&[widest, put(has(0, 1), 5), hole(0, 9)]), marked);
    // A hole of depth 0 alone shows in byte 6 only.
    let mut zero = empty.clone();
    zero.block[6] = 1;
    assert_eq!(after(&[hole(0, 0)]), zero);
}

fn held(hole: Option<(i32, i32)>, marks: &[(i32, i32)]) -> Held {
    let marked = |&(top, bottom): &(i32, i32)| from_to(has(0, 1), top, bottom);
    Held {
        hole: hole.map(|(top, bottom)| Hole { top, bottom }),
        marks: marks.iter().map(marked).collect(),
        ..Held::default()
    }
}

/// A block with a hole is good if its ends are in range and order and all marks are inside.
#[test]
fn good_and_bad_blocks() {
    let good = |hole, marks: &[(i32, i32)]| {
        let held = held(Some(hole), marks);
        decode(&encode(&held)).is_some_and(|read| read == held)
    };
    assert!(good((10, 30), &[]) && good((0, 0), &[(0, 0)]));
    assert!(good((10, 30), &[(10, 10), (30, 30), (10, 30)]));
    assert!(good((SHALLOWEST, DEEPEST), &[(SHALLOWEST, DEEPEST)]));
    assert!(!good((30, 10), &[]) && !good((1, 0), &[]));
    assert!(!good((SHALLOWEST - 1, 5), &[]) && !good((5, DEEPEST + 1), &[]));
    assert!(!good((i32::MIN, i32::MAX), &[(5, 5)]));
    for outside in [
        (9, 9),
        (31, 31),
        (9, 20),
        (20, 31),
        (9, 31),
        (0, 1),
        (40, 50),
    ] {
        assert!(!good((10, 30), &[outside]) && !good((10, 30), &[(15, 15), outside]));
    }
}

/// Byte 6 is 0 or 1, and with 0 there the ends are zero.
#[test]
fn stray_bytes_of_the_hole() {
    let with = |held: &Held, at: usize, value| {
        let mut block = encode(held);
        block[at] = value;
        decode(&block)
    };
    let (none, some) = (held(None, &[(15, 20)]), held(Some((10, 30)), &[(15, 20)]));
    assert!((2..=255).all(|value| with(&some, 6, value).is_none()));
    assert!((1..=255).all(|value| with(&none, 6, value).is_none()));
    assert!((8..16).all(|at| with(&none, at, 1).is_none()));
    assert_eq!(with(&some, 6, 0), None);
    assert_eq!(with(&some, 7, 1), None);
    assert_eq!(with(&some, 8, 15), Some(held(Some((15, 30)), &[(15, 20)])));
    assert_eq!(with(&some, 8, 16), None);
    assert_eq!(with(&some, 12, 20), Some(held(Some((10, 20)), &[(15, 20)])));
    assert_eq!(with(&some, 12, 19), None);
    // Without marks a 1 in byte 6 of the empty block is the hole of depth 0.
    assert_eq!(with(&Held::default(), 6, 1), Some(held(Some((0, 0)), &[])));
    assert_eq!(with(&Held::default(), 6, 2), None);
}

/// The pieces of a hole: a marked depth at its top or bottom leaves nothing above or below it.
#[test]
fn pieces_of_a_hole() {
    let at = |hole, marks: &[(i32, i32)]| representatives(&held(Some(hole), marks));
    assert_eq!(at((10, 30), &[]), [10]);
    assert_eq!(at((-4, -4), &[]), [-4]);
    assert_eq!(at((-4, -4), &[(-4, -4)]), [-4]);
    assert_eq!(at((10, 30), &[(15, 15)]), [10, 15, 16]);
    assert_eq!(at((10, 30), &[(10, 10)]), [10, 11]);
    assert_eq!(at((10, 30), &[(30, 30)]), [10, 30]);
    assert_eq!(at((10, 30), &[(29, 29)]), [10, 29, 30]);
    assert_eq!(at((10, 30), &[(11, 11)]), [10, 11, 12]);
    assert_eq!(at((10, 30), &[(10, 30)]), [10, 11, 30]);
    assert_eq!(at((10, 11), &[(10, 11)]), [10, 11]);
    let spread: Vec<_> = (0..96).map(|i| (2 * i, 2 * i)).collect();
    assert_eq!(at((0, 190), &spread).len(), 191);
    assert_eq!(at((-1, 190), &spread).len(), 192);
    assert_eq!(at((-1, 191), &spread).len(), 193);
}

/// The row of item 0 with EVERY and label 1, in a table that held something else before.
#[test]
fn tables_of_a_hole() {
    let row = |ends: (i32, i32), marks: &[(i32, i32)]| {
        let mut memory = Memory::zeros(Lent::EXACT);
        memory.block = encode(&held(Some(ends), marks));
        memory.labels.fill(u64::MAX);
        let asked = bytes(&query(has(0, EVERY), 0));
        record(&mut memory, &Lent::EXACT, &asked);
        assert!(memory.labels[6..PIECES].iter().all(|&entry| entry == 0));
        memory.labels[..6].to_vec()
    };
    assert_eq!(row((10, 30), &[]), [1, 0, 0, 0, 0, 0]);
    assert_eq!(row((10, 30), &[(15, 20)]), [1, 3, 3, 3, 1, 0]);
    assert_eq!(row((15, 30), &[(15, 20)]), [3, 3, 3, 1, 0, 0]);
    assert_eq!(row((10, 20), &[(15, 20)]), [1, 3, 3, 3, 0, 0]);
    assert_eq!(row((15, 20), &[(15, 20)]), [3, 3, 3, 0, 0, 0]);
    assert_eq!(row((15, 15), &[(15, 15)]), [3, 0, 0, 0, 0, 0]);
}
