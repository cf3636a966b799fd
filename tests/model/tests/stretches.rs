//! Marks with top and bottom: worked cases, what counts as the same mark, and the order of
//! refusals.

use model::frame::{bytes, framed, wide_bytes};
use model::listing::{self, answers_to as answers};
use model::short::*;
use model::terms::*;

/// The answers, with every mark by the kinds 13 to 16.
fn wide_answers(records: &[Record]) -> Vec<String> {
    listing::answers(&records.iter().flat_map(wide_bytes).collect::<Vec<u8>>())
}

/// The last answer, which is the same whichever kinds bring the marks.
fn last(records: &[Record]) -> String {
    let all = answers(records);
    assert_eq!(all, wide_answers(records));
    all.last().unwrap().clone()
}

/// The spans of label 1 on item 0 with these marks of it.
fn spans_with(ends: &[(i32, i32)]) -> String {
    let puts = ends.iter().map(|&(t, b)| put_from_to(has(0, 1), t, b));
    last(&puts.chain([spans(0, 1)]).collect::<Vec<_>>())
}

/// A stretch 100 to 110 and a point at 120 under the operator.
fn caliper_under(op: Operator) -> String {
    let marks = [put_from_to(has(0, 1), 100, 110), put(has(0, 1), 120)];
    last(&[marks[0], marks[1], label(op, 1, 2), spans(0, 2)])
}

#[test]
fn operators_on_a_stretch_and_a_point() {
    // From 110 to 120 is a distance of 10.
    assert_eq!(caliper_under(within(1)), "spans 2 100:110 120:120");
    assert_eq!(caliper_under(within(10)), "spans 2 100:110 120:120");
    assert_eq!(caliper_under(within(11)), "spans 1 100:120");
    assert_eq!(caliper_under(whole(BETWEEN)), "spans 1 100:120");
    assert_eq!(caliper_under(whole(ABOVE)), "spans 1 *:120");
    assert_eq!(caliper_under(whole(BELOW)), "spans 1 100:*");
    assert_eq!(caliper_under(whole(ANYWHERE)), "spans 1 *:*");
}

#[test]
fn operators_on_one_stretch() {
    let under = |op| {
        last(&[
            put_from_to(has(0, 1), 100, 110),
            label(op, 1, 2),
            spans(0, 2),
        ])
    };
    assert_eq!(under(whole(ABOVE)), "spans 1 *:110");
    assert_eq!(under(whole(BELOW)), "spans 1 100:*");
    assert_eq!(under(whole(BETWEEN)), "spans 1 100:110");
    assert_eq!(under(within(1)), "spans 1 100:110");
}

#[test]
fn questions_at_a_stretch() {
    let asked = [99, 100, 101, 105, 109, 110, 111].map(|depth| query(has(0, 1), depth));
    let marks = [put_from_to(has(0, 1), 100, 110)];
    let said = answers(&[&marks[..], &asked].concat());
    assert_eq!(said[1..], ["no", "yes", "yes", "yes", "yes", "yes", "no"]);
}

#[test]
fn stretches_beside_each_other() {
    let cases = [
        ("overlap", [(10, 20), (15, 30)], "spans 1 10:30"),
        ("nest", [(10, 30), (15, 20)], "spans 1 10:30"),
        ("touch", [(10, 20), (21, 30)], "spans 1 10:30"),
        ("touch, deeper first", [(21, 30), (10, 20)], "spans 1 10:30"),
        ("share an end", [(10, 20), (20, 30)], "spans 1 10:30"),
        ("share the top", [(10, 20), (10, 30)], "spans 1 10:30"),
        ("one apart", [(10, 20), (22, 30)], "spans 2 10:20 22:30"),
        ("point at an end", [(10, 20), (20, 20)], "spans 1 10:20"),
        ("point behind", [(10, 20), (21, 21)], "spans 1 10:21"),
        ("at zero", [(-2, -1), (0, 1)], "spans 1 -2:1"),
    ];
    for (name, ends, expected) in cases {
        assert_eq!(spans_with(&ends), expected, "{name}");
    }
}

#[test]
fn taking_one_of_two() {
    let both_put = |a: (i32, i32), b: (i32, i32)| {
        [a, b].map(|(top, bottom)| put_from_to(has(0, 1), top, bottom))
    };
    let left = |marks: [Record; 2], (top, bottom): (i32, i32)| {
        let taken = take_from_to(has(0, 1), top, bottom);
        last(&[marks[0], marks[1], taken, spans(0, 1)])
    };
    let shared = both_put((10, 20), (20, 30));
    assert_eq!(left(shared, (10, 20)), "spans 1 20:30");
    assert_eq!(left(shared, (20, 30)), "spans 1 10:20");
    let nested = both_put((10, 30), (15, 20));
    assert_eq!(left(nested, (10, 30)), "spans 1 15:20");
    assert_eq!(left(nested, (15, 20)), "spans 1 10:30");
    // Neither what both cover together nor a part of one is held.
    let said = answers(&[shared[0], shared[1], take_from_to(has(0, 1), 10, 30)]);
    assert_eq!(said[2], "refused 10");
    let said = answers(&[nested[0], nested[1], take(has(0, 1), 10)]);
    assert_eq!(said[2], "refused 10");
}

#[test]
fn the_whole_range() {
    assert_eq!(
        spans_with(&[(SHALLOWEST, DEEPEST)]),
        "spans 1 -10000:200000"
    );
    let asked = [-10_001, -10_000, 0, 200_000, 200_001].map(|depth| query(has(0, 1), depth));
    let marks = [put_from_to(has(0, 1), SHALLOWEST, DEEPEST)];
    let said = answers(&[&marks[..], &asked].concat());
    assert_eq!(said[1..], ["no", "yes", "yes", "yes", "no"]);
}

#[test]
fn links_with_top_and_bottom() {
    let base = [
        via(0, 2, 3),
        link_rule(within(6), 0, 1),
        put_from_to(link(0, 0, 1), 10, 20),
        put_from_to(has(1, 2), 15, 30),
    ];
    let with = |more: &[Record]| last(&[&base[..], more].concat());
    assert_eq!(with(&[spans(0, 3)]), "spans 1 15:20");
    // 25 - 20 = 5 < 6 fills link 1 from 20 to 25; link 0 stays as it is.
    let second = put_from_to(link(0, 0, 1), 25, 26);
    assert_eq!(with(&[second, query(link(0, 1, 1), 23)]), "yes");
    assert_eq!(with(&[second, query(link(0, 0, 1), 23)]), "no");
    assert_eq!(with(&[second, spans(0, 3)]), "spans 2 15:20 25:26");
}

#[test]
fn contradiction_where_stretches_meet() {
    let never = both(1, 2, NEVER);
    let met = |top| {
        let marks = [
            put_from_to(has(4, 1), 10, 20),
            put_from_to(has(4, 2), top, 30),
        ];
        last(&[never, marks[0], marks[1], query(has(4, EVERY), 0)])
    };
    assert_eq!(met(20), "contradiction 4");
    assert_eq!(met(21), "yes");
}

#[test]
fn the_same_mark_by_either_kind() {
    let send = |parts: &[&[u8]]| listing::answers(&parts.concat());
    for fact in [has(0, 1), link(3, 4, 5)] {
        let (point, covering) = (put(fact, -7), bytes(&put_from_to(fact, -7, -6)));
        let (old, new) = (bytes(&point), wide_bytes(&point));
        let (old_take, new_take) = (bytes(&take(fact, -7)), wide_bytes(&take(fact, -7)));
        assert_eq!(send(&[&old, &new]), ["done", "refused 9"]);
        assert_eq!(send(&[&new, &old]), ["done", "refused 9"]);
        assert_eq!(send(&[&old, &covering]), ["done", "done"]);
        assert_eq!(send(&[&new, &old_take]), ["done", "done"]);
        assert_eq!(send(&[&old, &new_take]), ["done", "done"]);
        assert_eq!(send(&[&covering, &old_take]), ["done", "refused 10"]);
    }
}

/// 6, 8 and 14 in this order, without a look at what is held.
#[test]
fn order_of_body_refusals() {
    let cases = [
        ((16, 6, 5), 6),
        ((16, DEEPEST + 1, 5), 6),
        ((0, DEEPEST + 1, 5), 8),
        ((0, DEEPEST + 2, DEEPEST + 1), 8),
        ((0, 5, DEEPEST + 1), 8),
        ((0, SHALLOWEST - 1, 5), 8),
        ((0, 5, SHALLOWEST - 1), 8),
        ((0, i32::MAX, i32::MIN), 8),
        ((0, 6, 5), 14),
        ((0, DEEPEST, SHALLOWEST), 14),
    ];
    for ((item, top, bottom), number) in cases {
        let expected = format!("refused {number}");
        let mark = from_to(has(item, 1), top, bottom);
        let tie = from_to(link(item, 0, 0), top, bottom);
        let records = [mark, tie].map(|mark| [Record::Put(mark), Record::Take(mark)]);
        for said in answers(&records.concat()) {
            assert_eq!(said, expected, "{mark:?}");
        }
    }
}

/// As many points of label 1 on item 1, 10 apart.
fn points(count: i32) -> Vec<Record> {
    (0..count).map(|i| put(has(1, 1), 10 * i)).collect()
}

/// The answer to a stretch of item 0 when so many depths are marked.
fn put_at(count: i32, top: i32, bottom: i32) -> String {
    let mut records = points(count);
    records.push(put_from_to(has(0, 1), top, bottom));
    last(&records)
}

#[test]
fn ends_at_the_limit() {
    assert_eq!(put_at(94, 1, 2), "done");
    assert_eq!(put_at(95, 1, 2), "refused 12");
    assert_eq!(put_at(95, 1, 1), "done");
    assert_eq!(put_at(95, 0, 1), "done");
    assert_eq!(put_at(95, 1, 10), "done");
    assert_eq!(put_at(96, 0, 950), "done");
    assert_eq!(put_at(96, 10, 10), "done");
    assert_eq!(put_at(96, 10, 11), "refused 12");
    assert_eq!(put_at(96, -1, 10), "refused 12");
    assert_eq!(put_at(96, 1, 2), "refused 12");
    assert_eq!(put_at(96, 2, 1), "refused 14");
}

/// An end is free with the last mark that has it, as top or as bottom.
#[test]
fn an_end_is_free_with_its_last_mark() {
    let mut records = points(94);
    let (above, below) = ((-20, -10), (-30, -20));
    let put_ends = |(top, bottom)| put_from_to(has(0, 1), top, bottom);
    let take_ends = |(top, bottom)| take_from_to(has(0, 1), top, bottom);
    records.extend([put_ends(above), put_ends(below)]);
    assert_eq!(last(&records), "refused 12");
    records.extend([take(has(1, 1), 0), put_ends(below)]);
    assert_eq!(last(&records), "done");
    // 93 points, -30, -20 and -10; without the upper stretch -10 is free, -20 is not.
    let fresh = put_from_to(has(2, 2), 1, 2);
    records.extend([take_ends(above), fresh]);
    assert_eq!(last(&records), "refused 12");
    records.extend([take_ends(below), fresh]);
    assert_eq!(last(&records), "done");
}

#[test]
fn lengths_and_kinds() {
    let said = |kind, body: usize| listing::answers(&framed(kind, &vec![0; body]));
    for (kind, body) in [(13, 10), (14, 11), (15, 10), (16, 11)] {
        assert_eq!(said(kind, body - 1), ["refused 5"]);
        assert_eq!(said(kind, body + 1), ["refused 5"]);
        assert_eq!(said(kind, 0), ["refused 5"]);
    }
    // Label 0 is no mark's label; link 0 from 0 to 0 at 0 is a mark.
    assert_eq!(said(13, 10), ["refused 6"]);
    assert_eq!(said(14, 11), ["done"]);
    assert_eq!(said(15, 10), ["refused 6"]);
    assert_eq!(said(16, 11), ["refused 10"]);
    assert_eq!(said(0x010d, 10), ["refused 4"]);
}

#[test]
fn bytes_of_the_new_kinds() {
    let mark = from_to(has(1, 2), -2, 3);
    let ends = [0xfe, 0xff, 0xff, 0xff, 3, 0, 0, 0];
    let label_body = [&[1, 2][..], &ends].concat();
    let link_body = [&[1, 2, 3][..], &ends].concat();
    assert_eq!(bytes(&Record::Put(mark)), framed(13, &label_body));
    assert_eq!(bytes(&Record::Take(mark)), framed(15, &label_body));
    let tie = from_to(link(1, 2, 3), -2, 3);
    assert_eq!(bytes(&Record::Put(tie)), framed(14, &link_body));
    assert_eq!(bytes(&Record::Take(tie)), framed(16, &link_body));
}
