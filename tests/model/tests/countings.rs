//! Two ways of counting a distance: worked cases, the record that sets one, and RESET.

use model::block::COUNTING_AT;
use model::frame::{bytes, framed};
use model::listing::{self, answers_to as answers, last_answer};
use model::short::*;
use model::terms::*;

/// The marks of label 1 on item 0.
fn marks(ends: &[(i32, i32)]) -> Vec<Record> {
    let marked = |&(top, bottom): &(i32, i32)| put_from_to(has(0, 1), top, bottom);
    ends.iter().map(marked).collect()
}

/// What WITHIN n gives on such marks by that counting.
fn within_gives(value: u8, n: u32, ends: &[(i32, i32)]) -> String {
    let mut records = vec![counting(value), label(within(n), 1, 2)];
    records.extend(marks(ends));
    records.push(spans(0, 2));
    last_answer(&records)
}

/// For each case what the old counting gives, and the new one.
fn compare(ends: &[(i32, i32)], cases: &[(u32, &str, &str)]) {
    for &(n, old, new) in cases {
        assert_eq!(within_gives(1, n, ends), old, "WITHIN {n}, old, {ends:?}");
        assert_eq!(within_gives(2, n, ends), new, "WITHIN {n}, new, {ends:?}");
    }
}

#[test]
fn two_marks_19_apart() {
    let (apart, filled) = ("spans 2 104:104 123:123", "spans 1 104:123");
    let cases = [
        (1, apart, apart),
        (18, apart, apart),
        (19, apart, filled),
        (20, filled, filled),
    ];
    compare(&[(104, 104), (123, 123)], &cases);
}

/// Distances 1, 2 and 4 in a row.
#[test]
fn four_marks_around_zero() {
    let m = "spans 3 -3:-2 0:0 4:4";
    let upper = "spans 2 -3:0 4:4";
    let all = "spans 1 -3:4";
    let cases = [
        (1, m, m),
        (2, m, upper),
        (3, upper, upper),
        (4, upper, all),
        (5, all, all),
    ];
    compare(&[(-3, -3), (-2, -2), (0, 0), (4, 4)], &cases);
}

/// The distance goes from a bottom to the next top; inside a stretch there is nothing to fill.
#[test]
fn ends_of_stretches() {
    let apart = "spans 2 100:110 120:130";
    let filled = "spans 1 100:130";
    let cases = [
        (9, apart, apart),
        (10, apart, filled),
        (11, filled, filled),
        (30, filled, filled),
    ];
    compare(&[(100, 110), (120, 130)], &cases);
    // Neighbours are one run already, and one depth between them is a distance of 2.
    let touch = [(1, "spans 1 10:30", "spans 1 10:30")];
    compare(&[(10, 20), (21, 30)], &touch);
    let one_left_out = "spans 2 10:20 22:30";
    let cases = [
        (1, one_left_out, one_left_out),
        (2, one_left_out, "spans 1 10:30"),
    ];
    compare(&[(10, 20), (22, 30)], &cases);
}

/// 210,000 is the widest gap there is; n goes on to 300,000 by either counting.
#[test]
fn the_widest_gap() {
    let (apart, filled) = (
        "spans 2 -10000:-10000 200000:200000",
        "spans 1 -10000:200000",
    );
    let cases = [
        (209_999, apart, apart),
        (210_000, apart, filled),
        (210_001, filled, filled),
        (MAX_N, filled, filled),
    ];
    let ends = [(SHALLOWEST, SHALLOWEST), (DEEPEST, DEEPEST)];
    compare(&ends, &cases);
    for value in [1, 2] {
        let said = answers(&[counting(value), label(within(MAX_N + 1), 1, 2)]);
        assert_eq!(said, ["done", "refused 7"]);
    }
}

/// Links are counted alike, and what is derived goes on by the same counting.
#[test]
fn links_and_chains() {
    let third = put(link(0, 0, 1), 25);
    let asked = [third, query(link(0, 1, 1), 12), spans(0, 5)];
    let said = |value| answers(&[&links_5_apart(value)[..], &asked].concat());
    assert_eq!(said(1)[7..], ["no", "spans 2 10:15 25:25"]);
    assert_eq!(said(2)[7..], ["yes", "spans 1 10:25"]);
}

#[test]
fn a_contradiction_by_the_new_counting_alone() {
    let asked = |value| {
        let mut records = vec![counting(value), label(within(10), 1, 2), both(2, 3, NEVER)];
        records.extend(marks(&[(0, 0), (10, 10)]));
        records.extend([put(has(0, 3), 5), query(has(0, 3), 5)]);
        last_answer(&records)
    };
    assert_eq!(asked(1), "yes");
    assert_eq!(asked(2), "contradiction 0");
}

/// Set, set again, set back, and back by RESET; without a rule it goes through, marks or not.
#[test]
fn setting_a_counting() {
    let mut records = marks(&[(104, 104), (123, 123)]);
    let ask = [label(within(19), 1, 2), spans(0, 2)];
    records.extend([1, 2, 2, 1, 2].map(counting));
    records.extend(ask);
    records.push(Record::Reset);
    records.extend(marks(&[(104, 104), (123, 123)]));
    records.extend(ask);
    let said = answers(&records);
    let done = |line: &String| line == "done";
    assert!(said[..8].iter().all(done) && said[9..13].iter().all(done));
    assert_eq!(said[8], "spans 1 104:123");
    assert_eq!(said[13], "spans 2 104:104 123:123");
}

/// 7 goes before 15, and 15 is given for either counting while a rule is held.
#[test]
fn order_of_refusals() {
    for set in [1, 2] {
        let asked = [1, 2, 0, 3, 255].map(counting);
        let without = answers(&[&[counting(set)], &asked[2..]].concat());
        assert_eq!(without[1..], ["refused 7"; 3]);
        let with = answers(&[&[counting(set), RULE], &asked[..]].concat());
        let (fifteen, seven) = ("refused 15", "refused 7");
        assert_eq!(with[2..], [fifteen, fifteen, seven, seven, seven]);
    }
}

#[test]
fn lengths_and_kinds() {
    let said = |kind, body: &[u8]| listing::answers(&framed(kind, body));
    assert_eq!(said(17, &[2]), ["done"]);
    assert_eq!(said(17, &[]), ["refused 5"]);
    assert_eq!(said(17, &[2, 0]), ["refused 5"]);
    assert_eq!(said(17, &[3, 0]), ["refused 5"]);
    assert_eq!(said(0x0111, &[2]), ["refused 4"]);
    for kind in [0, 19, 22, 23, u16::MAX] {
        assert_eq!(said(kind, &[1]), ["refused 4"]);
    }
    assert_eq!(bytes(&counting(2)), [3, 0, 17, 0, 2]);
}

/// Kind 17 changes one byte of the block and nothing else; RESET clears it and leaves the tail.
#[test]
fn what_is_written() {
    let empty = after(&[]);
    let mut set = empty.clone();
    set.block[COUNTING_AT] = 1;
    assert_eq!(after(&[counting(2)]), set);
    assert_eq!(after(&[counting(2), counting(1)]), empty);
    assert_eq!(after(&[counting(2), Record::Reset]), empty);
    assert_eq!(after(&[counting(2), RULE, Record::Reset]), empty);
    let ruled = after(&[counting(2), RULE]);
    for refused in [0, 1, 2, 3] {
        assert_eq!(after(&[counting(2), RULE, counting(refused)]), ruled);
    }
}
