//! The cable zero moves: the record that shifts all marks and the hole, or none of them, refusal 8,
//! and what stays as it was.

use model::block::encode;
use model::frame::{bytes, framed};
use model::held::Held;
use model::listing::{self, answers_to as answers, last_answer};
use model::service::{record, Lent, Memory};
use model::short::*;
use model::terms::*;

/// Shifts that no mark can follow, the least and the greatest number among them.
const FAR: [i32; 8] = [
    i32::MIN,
    i32::MIN + 1,
    -1_000_000,
    -210_001,
    210_001,
    1_000_000,
    i32::MAX - 1,
    i32::MAX,
];

/// The records and one more.
fn with(records: &[Record], more: Record) -> Vec<Record> {
    [records, &[more]].concat()
}

/// Whether the shift behind these records is done; refused with 8, it leaves all memory as it was.
fn goes(records: &[Record], by: i32) -> bool {
    let shifted = with(records, shift(by));
    match last_answer(&shifted).as_str() {
        "done" => true,
        "refused 8" => {
            assert_eq!(after(&shifted), after(records), "shift by {by}");
            false
        }
        other => panic!("{other} for a shift by {by}"),
    }
}

/// What is held can go that far up and down and not one more, and no number brings it farther.
fn reach(records: &[Record], up: i32, down: i32) {
    for by in [0, -up, -up / 2, down / 2, down] {
        assert!(goes(records, by), "{by}: {records:?}");
    }
    for by in [-up - 1, -up - 2, down + 1, down + 2]
        .into_iter()
        .chain(FAR)
    {
        assert!(!goes(records, by), "{by}: {records:?}");
    }
}

/// Marks of three facts with these ends, one after the other.
fn marks(ends: &[(i32, i32)]) -> Vec<Record> {
    let facts = [has(0, 1), link(3, 2, 5), has(9, 62)];
    let facts = facts.iter().cycle();
    let marked = |(&fact, &(top, bottom))| put_from_to(fact, top, bottom);
    facts.zip(ends).map(marked).collect()
}

/// Rules, counting and profile are nothing that could leave its range.
#[test]
fn nothing_to_move() {
    let settings = [counting(2), Record::Profile, RULE];
    let taken = [put(has(0, 1), 7), RULE, take(has(0, 1), 7)];
    let emptied = [hole(0, 9), put(has(0, 1), 7), Record::Reset];
    for records in [&[][..], &[RULE], &settings, &taken, &emptied] {
        for by in [0, 1, -1].into_iter().chain(FAR) {
            assert!(goes(records, by));
            assert_eq!(after(&with(records, shift(by))), after(records));
        }
    }
}

/// One mark: its top decides upwards and its bottom downwards.
#[test]
fn a_mark_at_the_ends_of_the_range() {
    for (top, bottom) in [(0, 0), (-7, 90), (-9_999, 199_999), (5, 200_000)] {
        for mark in marks(&[(top, bottom); 3]) {
            reach(&[mark], top - SHALLOWEST, DEEPEST - bottom);
        }
    }
    reach(&marks(&[(SHALLOWEST, SHALLOWEST)]), 0, 210_000);
    reach(&marks(&[(DEEPEST, DEEPEST)]), 210_000, 0);
    reach(&marks(&[(SHALLOWEST, DEEPEST)]), 0, 0);
    reach(&marks(&[(SHALLOWEST, 0), (0, DEEPEST)]), 0, 0);
}

/// One mark that would leave keeps all of them where they are, wherever it stands in the list.
#[test]
fn all_or_none() {
    let inside = [(100, 120), (50, 50), (90, 300), (60, 70)];
    for place in 0..=inside.len() {
        for outermost in [(-100, 55), (20, 150_000), (-100, 150_000)] {
            let mut ends = inside.to_vec();
            ends.insert(place, outermost);
            let (top, bottom) = (outermost.0.min(50), outermost.1.max(300));
            reach(&marks(&ends), top - SHALLOWEST, DEEPEST - bottom);
        }
    }
}

/// The hole moves along: with its marks, which lie inside, and without.
#[test]
fn a_hole_at_the_ends_of_the_range() {
    let inside = marks(&[(15, 20), (10, 10), (30, 30)]);
    for (top, bottom) in [(10, 30), (-500, 3_000), (-9_999, 200_000)] {
        let (up, down) = (top - SHALLOWEST, DEEPEST - bottom);
        reach(&[hole(top, bottom)], up, down);
        reach(&[hole(top, bottom), inside[0]], up, down);
        reach(&[&[hole(top, bottom)], &inside[..]].concat(), up, down);
    }
    reach(&[hole(SHALLOWEST, DEEPEST)], 0, 0);
    reach(&[hole(SHALLOWEST, DEEPEST), inside[0]], 0, 0);
    reach(&[hole(0, 0)], 10_000, 200_000);
}

/// The block is that of the same records with all depths moved: every mark in its place.
#[test]
fn what_is_written() {
    let ends = [(100, 120), (-40, -40), (100, 110), (0, 7), (-40, 120)];
    let set = [counting(2), Record::Profile, RULE];
    for given in [None, Some((-90, 130)), Some((-40, 120))] {
        for by in [0, 1, -1, 25, 41, -101, -9_910, 199_870] {
            let dug = given.map(|(top, bottom)| hole(top, bottom));
            let moved = given.map(|(top, bottom)| hole(top + by, bottom + by));
            let deeper = ends.map(|(top, bottom)| (top + by, bottom + by));
            let before = [&set[..], &Vec::from_iter(dug), &marks(&ends)].concat();
            let expected = [&set[..], &Vec::from_iter(moved), &marks(&deeper)].concat();
            let written = after(&with(&before, shift(by)));
            assert_eq!(written, after(&expected), "{given:?} by {by}");
            // Back again it is the block from before.
            let back = [&before[..], &[shift(by), shift(-by)]].concat();
            assert_eq!(after(&back), after(&before), "{given:?} by {by}");
        }
    }
}

/// Bytes that a shift by 25 changes: the hole's ends and a mark's.
#[test]
fn bytes_of_the_block() {
    let section = [RULE, hole(-25, 90), put_from_to(has(3, 7), -25, 10)];
    let mut expected = after(&section);
    expected.block[8..16].copy_from_slice(&[0, 0, 0, 0, 115, 0, 0, 0]);
    expected.block[1_056..1_068].copy_from_slice(&[6, 3, 7, 0, 0, 0, 0, 0, 35, 0, 0, 0]);
    assert_eq!(after(&with(&section, shift(25))), expected);
}

/// Tables and span buffer are as lent, whatever they hold, for a shift that is done and for one that
/// is not.
#[test]
fn tables_and_buffer_stay() {
    let held = Held {
        hole: Some(Hole { top: 0, bottom: 50 }),
        marks: vec![from_to(has(0, 1), 10, 20), from_to(link(0, 0, 1), 0, 50)],
        ..Held::default()
    };
    for (by, answer) in [(5, Answer::Done), (-10_001, Answer::Refused(8))] {
        let mut memory = Memory::zeros(Lent::EXACT);
        memory.block = encode(&held);
        memory.labels.fill(u64::MAX - 4);
        memory.links.fill(9);
        memory.spans.fill(-7);
        let mut expected = memory.clone();
        let said = record(&mut memory, &Lent::EXACT, &bytes(&shift(by)));
        assert_eq!(said, (answer, 8));
        let moved = held.shifted(by).unwrap_or(held.clone());
        expected.block = encode(&moved);
        assert_eq!(memory, expected);
    }
}

/// The mark is the one at the new depth: it is taken there, and at the old one another is free.
#[test]
fn marks_lie_at_the_new_depths() {
    let fact = has(0, 1);
    let section = [put_from_to(fact, 100, 110), put(fact, 200), shift(25)];
    let said = |asked: Record| last_answer(&with(&section, asked));
    assert_eq!(said(take_from_to(fact, 125, 135)), "done");
    assert_eq!(said(take(fact, 225)), "done");
    assert_eq!(said(take_from_to(fact, 100, 110)), "refused 10");
    assert_eq!(said(take_from_to(fact, 100, 135)), "refused 10");
    assert_eq!(said(take_from_to(fact, 125, 110)), "refused 14");
    assert_eq!(said(take(fact, 200)), "refused 10");
    assert_eq!(said(put_from_to(fact, 125, 135)), "refused 9");
    assert_eq!(said(put(fact, 225)), "refused 9");
    assert_eq!(said(put_from_to(fact, 100, 110)), "done");
    assert_eq!(said(put(fact, 200)), "done");
    assert_eq!(said(spans(0, 1)), "spans 2 125:135 225:225");
}

/// Marks come to where others lay.
#[test]
fn a_row_of_marks() {
    let row = |first| (0..5).map(move |i| put(has(0, 1), first + 10 * i));
    for by in [10, -10, 20, -40] {
        let shifted: Vec<Record> = row(0).chain([shift(by)]).collect();
        assert!(answers(&shifted).iter().all(|said| said == "done"));
        assert_eq!(after(&shifted), after(&row(by).collect::<Vec<_>>()));
    }
}

/// A hole is still turned away while a mark is held, and marks go by where it lies now.
#[test]
fn the_hole_lies_at_the_new_depths() {
    let fact = has(0, 1);
    let section = [hole(0, 100), put(fact, 50), shift(-30)];
    let said = |asked: Record| last_answer(&with(&section, asked));
    for asked in [hole(0, 100), hole(-30, 70), hole(SHALLOWEST, DEEPEST)] {
        assert_eq!(said(asked), "refused 17");
    }
    for depth in [-31, 71, 100] {
        assert_eq!(said(put(fact, depth)), "refused 16");
    }
    for depth in [-30, -1, 70] {
        assert_eq!(said(put(fact, depth)), "done");
    }
    assert_eq!(said(spans(5, EVERY)), "spans 1 -30:70");
    // Without a mark another takes its place.
    let behind = [take(fact, 20), hole(3, 4), shift(5), spans(0, EVERY)];
    let said = answers(&[&section[..], &behind].concat());
    assert_eq!(said[3..], ["done", "done", "done", "spans 1 8:9"]);
}

/// Counting, profile and rules go on as they were.
#[test]
fn settings_and_rules_stay() {
    let set = [counting(2), Record::Profile, label(within(19), 1, 2)];
    let marked = [put(has(0, 1), 104), put(has(0, 1), 123)];
    let asked = [
        shift(-4_000),
        spans(0, 2),
        counting(1),
        label(whole(ABOVE), 1, 3),
        label(within(19), 1, 2),
        Record::Reset,
        shift(7),
        label(whole(ABOVE), 1, 3),
        spans(0, EVERY),
    ];
    let said = answers(&[&set[..], &marked, &asked].concat());
    let expected = [
        "done",
        "spans 1 -3896:-3877",
        "refused 15",
        "refused 20",
        "refused 9",
        "done",
        "done",
        "done",
        "spans 1 *:*",
    ];
    assert_eq!(said[5..], expected);
}

/// The specification's example moved, with its questions at the old depths and at the new ones.
#[test]
fn the_worked_example_moved() {
    for by in [10, -10, -9_000, 199_877, -10_100] {
        let mut records = worked_example()[..7].to_vec();
        records.push(shift(by));
        let deeper = |depth: i64| depth + i64::from(by);
        records.extend([106, 110].map(|depth| query(has(0, 4), deeper(depth))));
        records.push(spans(0, 4));
        let (top, bottom) = (deeper(104), deeper(109));
        let expected = ["done", "yes", "no", &format!("spans 1 {top}:{bottom}")];
        assert_eq!(answers(&records)[7..], expected);
    }
    assert!(!goes(&worked_example()[..7], -10_101));
    assert!(!goes(&worked_example()[..7], 199_878));
}

/// Without a hole an operator reaches as far as before, on both sides; in a hole it ends with it.
#[test]
fn missing_ends_are_still_missing() {
    let rules = [ABOVE, BELOW, ANYWHERE].map(|code| label(whole(code), 1, code));
    let asked = [ABOVE, BELOW, ANYWHERE, EVERY].map(|label| spans(0, label));
    let said = |given: Option<Record>, by| {
        let marked = [put_from_to(has(0, 1), 10, 20), shift(by)];
        let given = Vec::from_iter(given);
        let mut said = answers(&[&rules, &given[..], &marked, &asked].concat());
        said.split_off(said.len() - 4)
    };
    let endless = ["spans 1 *:45", "spans 1 35:*", "spans 1 *:*", "spans 1 *:*"];
    assert_eq!(said(None, 25), endless);
    let ended = [
        "spans 1 25:45",
        "spans 1 35:55",
        "spans 1 25:55",
        "spans 1 25:55",
    ];
    assert_eq!(said(Some(hole(0, 30)), 25), ended);
}

/// A bad well stays bad, and its item is named as before.
#[test]
fn contradictions_stay() {
    let section = [
        both(1, 2, NEVER),
        put_from_to(has(7, 1), 10, 20),
        put(has(7, 2), 20),
        put(link(7, 3, 4), -50),
        put(has(2, 1), 5),
    ];
    for by in [-9_950, -20, 0, 20, 199_980] {
        let at = |depth: i64| depth + i64::from(by);
        let asked = [
            shift(by),
            query(has(4, 1), at(10)),
            query(link(4, 3, 7), at(i64::MAX / 2)),
            spans(7, NEVER),
            query(has(2, 1), at(5)),
            query(has(2, 1), at(6)),
        ];
        let said = answers(&[&section[..], &asked].concat());
        let bad = "contradiction 7";
        assert_eq!(said[5..], ["done", bad, bad, bad, "yes", "no"]);
    }
}

/// All places and all depths taken: a shift needs no room.
#[test]
fn full_lists() {
    let mark = |i: i32| put(has((i % 16) as u8, 1 + (i / 16) as u8), i % 96);
    let full: Vec<Record> = (0..256).map(mark).collect();
    reach(&full, 10_000, 199_905);
    let said = |asked: Record| last_answer(&[&full[..], &[shift(500), asked]].concat());
    assert_eq!(said(put(has(0, 60), 500)), "refused 11");
    assert_eq!(said(put(has(0, 1), 500)), "refused 9");
    assert_eq!(said(take(has(0, 1), 500)), "done");
    let deep: Vec<Record> = (0..96).map(mark).collect();
    let said = |asked: Record| last_answer(&[&deep[..], &[shift(500), asked]].concat());
    assert_eq!(said(put(has(0, 60), 500)), "done");
    assert_eq!(said(put(has(0, 60), 95)), "refused 12");
    assert_eq!(said(put(has(0, 60), 596)), "refused 12");
}

#[test]
fn lengths_and_kinds() {
    let said = |kind, body: &[u8]| listing::answers(&framed(kind, body));
    assert_eq!(bytes(&shift(-2)), [6, 0, 20, 0, 0xfe, 0xff, 0xff, 0xff]);
    assert_eq!(bytes(&shift(0x0102_0304)), [6, 0, 20, 0, 4, 3, 2, 1]);
    assert_eq!(said(20, &[0; 4]), ["done"]);
    for length in [0, 1, 2, 3, 5, 8, 300] {
        assert_eq!(said(20, &vec![0; length]), ["refused 5"]);
    }
    assert_eq!(listing::answers(&[6, 0, 20, 0, 1, 0, 0]), ["refused 3"]);
    for kind in [0x0114, 0x1400, 19, 22] {
        assert_eq!(said(kind, &[0; 4]), ["refused 4"]);
    }
}
