//! Contradiction by joined items: chains of links, link questions about both ends, wells that are
//! answered beside a bad one, and what the tables and the span buffer show.

use model::block::encode;
use model::frame::bytes;
use model::held::Held;
use model::listing::{answers_to as answers, last_answer};
use model::service::{record, spans_of, Lent, Memory};
use model::short::*;
use model::terms::*;

/// An item with this label is bad, at the depths where it has it.
const BROKEN: u8 = 1;
const SAND: u8 = 2;

const SHALLOW: i32 = 5;
const DEEP: i32 = 700;

fn rule() -> Record {
    label(within(1), BROKEN, NEVER)
}

fn bad(item: u8) -> Record {
    put(has(item, BROKEN), DEEP)
}

/// A link of kind 0.
fn tie(from: u8, to: u8) -> Record {
    put(link(from, 0, to), SHALLOW)
}

/// The answers to the last so many records, under the rule.
fn tail(records: &[Record], count: usize) -> Vec<String> {
    let mut said = answers(&[&[rule()], records].concat());
    said.split_off(said.len() - count)
}

/// The answer to a question behind these records.
fn asked(records: &[Record], question: Record) -> String {
    tail(&[records, &[question]].concat(), 1).remove(0)
}

/// The answer about an item: yes, or a contradiction.
fn about(records: &[Record], item: u8) -> String {
    asked(records, query(has(item, EVERY), 0))
}

/// The answer about a link: no, or a contradiction.
fn between(records: &[Record], from: u8, to: u8) -> String {
    asked(records, query(link(from, 7, to), 0))
}

fn contradiction(item: u8) -> String {
    format!("contradiction {item}")
}

#[test]
fn an_item_alone() {
    for item in 0..ITEMS {
        let expected = match item {
            4 => contradiction(4),
            _ => "yes".to_string(),
        };
        assert_eq!(about(&[bad(4)], item), expected);
    }
}

/// Both links are followed along, against, or one each way: 3 leads to 2 and to 5, and so on.
#[test]
fn either_way() {
    for records in [
        [tie(3, 2), tie(3, 5), bad(2)],
        [tie(2, 3), tie(5, 3), bad(2)],
        [tie(2, 3), tie(3, 5), bad(2)],
        [tie(5, 3), tie(3, 2), bad(2)],
    ] {
        assert_eq!(
            [2, 3, 5].map(|item| about(&records, item)),
            ["contradiction 2"; 3]
        );
        assert_eq!([0, 1, 4, 6].map(|item| about(&records, item)), ["yes"; 4]);
    }
}

/// All items in one chain, its links along where that is said.
fn chain(along: fn(u8) -> bool) -> Vec<Record> {
    let link = |item| match along(item) {
        true => tie(item, item + 1),
        false => tie(item + 1, item),
    };
    (0..ITEMS - 1).map(link).collect()
}

/// Its links one way, the other way, and in turn; NEVER at either end or inside.
#[test]
fn a_chain_of_all_items() {
    let ways: [fn(u8) -> bool; 3] = [|_| true, |_| false, |item| item % 2 == 0];
    let named = |along, end| {
        let records = [chain(along), vec![bad(end)]].concat();
        (0..ITEMS).all(|item| about(&records, item) == contradiction(end))
    };
    for along in ways {
        assert!([0, 7, 15].iter().all(|&end| named(along, end)));
    }
}

/// A chain whose numbers rise and fall: 8, 1, 14, 3, 10 and 2, asked from one end about the other.
#[test]
fn a_winding_chain() {
    let chain = [tie(8, 1), tie(14, 1), tie(14, 3), tie(10, 3), tie(10, 2)];
    let with = |item| [&chain[..], &[bad(item)]].concat();
    assert_eq!(about(&with(2), 8), "contradiction 2");
    assert_eq!(about(&with(8), 2), "contradiction 8");
    assert_eq!(about(&with(14), 8), "contradiction 14");
    // One link less, and the ends are apart.
    let parted = [&chain[..2], &chain[3..], &[bad(2)]].concat();
    assert_eq!(about(&parted, 8), "yes");
    assert_eq!(about(&parted, 14), "yes");
    assert_eq!(about(&parted, 3), "contradiction 2");
}

#[test]
fn a_loop() {
    let ring = [tie(1, 2), tie(2, 3), tie(3, 1), bad(2)];
    assert_eq!(
        [1, 2, 3].map(|item| about(&ring, item)),
        ["contradiction 2"; 3]
    );
    assert_eq!(about(&ring, 4), "yes");
    let clean = [tie(1, 2), tie(2, 3), tie(3, 1), bad(4)];
    assert_eq!([1, 2, 3].map(|item| about(&clean, item)), ["yes"; 3]);
    // Two items that lead to each other, and one beside the ring.
    let both_ways = [tie(6, 9), tie(9, 6), tie(12, 9), bad(12)];
    assert_eq!(about(&both_ways, 6), "contradiction 12");
}

#[test]
fn a_self_link() {
    let records = [tie(5, 5), tie(6, 6), bad(6)];
    assert_eq!(about(&records, 5), "yes");
    assert_eq!(about(&records, 6), "contradiction 6");
    assert_eq!(between(&records, 5, 5), "no");
    assert_eq!(between(&records, 6, 6), "contradiction 6");
}

/// The link holds at one depth, NEVER at another, and the question stands at a third.
#[test]
fn at_any_depths() {
    let records = [put(link(9, 3, 4), -80), bad(4)];
    for depth in [i64::MIN, -81, -80, -79, 700, 9_000, i64::MAX] {
        let question = query(has(9, EVERY), depth);
        assert_eq!(asked(&records, question), "contradiction 4");
    }
    assert_eq!(asked(&records, spans(9, SAND)), "contradiction 4");
    assert_eq!(about(&records, 3), "yes");
    // A chain whose links never hold together.
    let apart = [put(link(9, 3, 4), 10), put(link(4, 3, 2), 20), bad(2)];
    assert_eq!(about(&apart, 9), "contradiction 2");
}

/// Each kind joins, and so does a chain of three kinds, none of which is the one asked about.
#[test]
fn of_any_kind() {
    let kinds = [(9, 1, 4), (4, 6, 2), (7, 2, 2)];
    let ties = kinds.map(|(from, kind, to)| put(link(from, kind, to), SHALLOW));
    let records = [&ties[..], &[bad(7)]].concat();
    assert_eq!(about(&records, 9), "contradiction 7");
    for kind in 0..KINDS {
        let question = query(link(9, kind, 9), SHALLOW.into());
        assert_eq!(asked(&records, question), "contradiction 7");
        let alone = [put(link(9, kind, 4), SHALLOW), bad(4)];
        assert_eq!(about(&alone, 9), "contradiction 4");
    }
}

/// The lowest item with NEVER is named, which need be neither the lowest joined nor the nearest.
#[test]
fn the_item_that_is_named() {
    assert_eq!(about(&[tie(1, 9), bad(9)], 1), "contradiction 9");
    assert_eq!(about(&[tie(0, 1), tie(1, 9), bad(9)], 1), "contradiction 9");
    let two = [tie(1, 12), tie(12, 9), bad(12), bad(9)];
    assert_eq!(
        [1, 9, 12].map(|item| about(&two, item)),
        ["contradiction 9"; 3]
    );
    // Another well's item is lower and has NEVER too.
    let other = [&two[..], &[bad(0), tie(3, 0)]].concat();
    assert_eq!(
        [1, 9, 12].map(|item| about(&other, item)),
        ["contradiction 9"; 3]
    );
    assert_eq!(
        [0, 3].map(|item| about(&other, item)),
        ["contradiction 0"; 2]
    );
}

/// Items joined to either end count, and the ends need not be joined to each other.
#[test]
fn links_between_wells() {
    let wells = [tie(1, 9), tie(12, 3), tie(5, 6)];
    let with = |items: &[u8]| {
        let broken: Vec<Record> = items.iter().map(|&item| bad(item)).collect();
        [&wells[..], &broken].concat()
    };
    let first = with(&[9]);
    assert_eq!(between(&first, 1, 3), "contradiction 9");
    assert_eq!(between(&first, 3, 1), "contradiction 9");
    assert_eq!(between(&first, 9, 9), "contradiction 9");
    assert_eq!(between(&first, 1, 9), "contradiction 9");
    assert_eq!(between(&first, 3, 5), "no");
    assert_eq!(between(&first, 5, 6), "no");
    assert_eq!(between(&first, 0, 15), "no");
    let both = with(&[9, 12]);
    assert_eq!(between(&both, 1, 3), "contradiction 9");
    assert_eq!(between(&both, 3, 1), "contradiction 9");
    assert_eq!(between(&both, 3, 5), "contradiction 12");
    assert_eq!(between(&both, 5, 3), "contradiction 12");
    assert_eq!(between(&both, 6, 5), "no");
    assert_eq!(between(&with(&[]), 1, 3), "no");
}

/// A held link between items that are clean is answered yes although a third item is bad.
#[test]
fn a_link_of_a_clean_well() {
    let records = [tie(5, 6), bad(0)];
    let depths = [SHALLOW - 1, SHALLOW, SHALLOW + 1];
    let said = depths.map(|depth| asked(&records, query(link(5, 0, 6), depth.into())));
    assert_eq!(said, ["no", "yes", "no"]);
    assert_eq!(asked(&records, query(link(6, 0, 5), SHALLOW.into())), "no");
}

/// Two wells of two items each, under the same rules.
#[test]
fn one_of_two_wells() {
    let records = [
        tie(0, 1),
        tie(2, 3),
        via(0, SAND, SAND),
        put_from_to(has(1, SAND), 0, 9),
        put_from_to(has(3, SAND), 0, 9),
        bad(3),
        query(has(0, SAND), 5),
        query(has(0, SAND), 6),
        spans(0, SAND),
        spans(1, SAND),
        query(has(2, SAND), 5),
        query(has(2, SAND), 6),
        spans(2, SAND),
        spans(3, NEVER),
        spans(4, SAND),
    ];
    let expected = [
        "yes",
        "no",
        "spans 1 5:5",
        "spans 1 0:9",
        "contradiction 3",
        "contradiction 3",
        "contradiction 3",
        "contradiction 3",
        "spans 0",
    ];
    assert_eq!(tail(&records, 9), expected);
}

/// A well is silenced only as long as a link joins it to the bad one, by whichever link.
#[test]
fn while_a_link_joins_them() {
    let question = spans(0, SAND);
    let second = link(1, 4, 0);
    let records = [
        put(has(0, SAND), 30),
        bad(1),
        question,
        tie(0, 1),
        question,
        put_from_to(second, 90, 95),
        take(link(0, 0, 1), SHALLOW),
        question,
        take_from_to(second, 90, 95),
        question,
    ];
    let (clean, silenced) = ("spans 1 30:30", "contradiction 1");
    let expected = [
        clean, "done", silenced, "done", "done", silenced, "done", clean,
    ];
    assert_eq!(tail(&records, 8), expected);
}

/// NEVER comes and goes on an item two links away.
#[test]
fn while_a_far_item_is_bad() {
    let question = query(has(5, EVERY), 0);
    let records = [
        tie(5, 6),
        tie(7, 6),
        question,
        bad(7),
        question,
        take(has(7, BROKEN), DEEP),
        question,
    ];
    let expected = ["yes", "done", "contradiction 7", "done", "yes"];
    assert_eq!(tail(&records, 5), expected);
}

/// VIA makes the item bad that leads to the marked one; asked is the one that it leads to.
#[test]
fn never_through_a_link() {
    let records = [via(0, SAND, NEVER), tie(8, 3), put(has(3, SAND), SHALLOW)];
    assert_eq!(
        [3, 8].map(|item| about(&records, item)),
        ["contradiction 8"; 2]
    );
    // The mark stands where no link is: the items are joined and neither is bad.
    let apart = [via(0, SAND, NEVER), tie(8, 3), put(has(3, SAND), DEEP)];
    assert_eq!([3, 8].map(|item| about(&apart, item)), ["yes"; 2]);
}

/// A derived link lies between items that a held one joins already, whatever its kind and depths.
#[test]
fn derived_links() {
    let rules = [
        link_rule(whole(ANYWHERE), 0, 1),
        link_rule(whole(BELOW), 1, 2),
    ];
    let records = [&rules[..], &[tie(3, 2), tie(3, 5), bad(2)]].concat();
    assert_eq!(about(&records, 5), "contradiction 2");
    assert_eq!([0, 1, 4].map(|item| about(&records, item)), ["yes"; 3]);
    let clean = [&rules[..], &[tie(3, 2), tie(5, 6), bad(5)]].concat();
    let question = query(link(3, 2, 2), i64::MAX);
    assert_eq!(asked(&clean, question), "yes");
    assert_eq!(between(&clean, 2, 6), "contradiction 5");
    // Rules without a held link join nothing.
    assert_eq!(about(&[&rules[..], &[bad(2)]].concat(), 5), "yes");
}

/// Every item has NEVER, and each is joined to itself: the specification's case, asked about 0.
#[test]
fn every_item_is_bad() {
    let with = |more: &[Record]| last_answer(&[&never_everywhere(), more].concat());
    let said = |item| with(&[query(has(item, 5), 0)]);
    assert!((0..ITEMS).all(|item| said(item) == contradiction(item)));
    let link_said = |from, to| with(&[query(link(from, 0, to), 0)]);
    assert_eq!(link_said(5, 3), "contradiction 3");
    assert_eq!(link_said(3, 5), "contradiction 3");
    let joined = with(&[tie(9, 4), query(has(9, 5), 0)]);
    assert_eq!(joined, "contradiction 4");
}

/// In a hole and outside it, for a bad well and for a clean one.
#[test]
fn with_a_hole() {
    let section = [
        hole(0, 800),
        tie(2, 3),
        bad(3),
        put(has(0, SAND), 10),
        put(link(0, 4, 1), 10),
    ];
    for depth in [i64::MIN, -1, 0, 10, 800, 801, i64::MAX] {
        let inside = (0..=800).contains(&depth);
        let (every, marked) = match (inside, depth) {
            (false, _) => ("no", "no"),
            (true, 10) => ("yes", "yes"),
            (true, _) => ("yes", "no"),
        };
        let at = |fact| asked(&section, query(fact, depth));
        assert_eq!(at(has(2, EVERY)), "contradiction 3");
        assert_eq!(at(link(2, 0, 2)), "contradiction 3");
        assert_eq!(at(link(0, 4, 2)), "contradiction 3");
        assert_eq!(at(has(1, EVERY)), every);
        assert_eq!(at(has(0, SAND)), marked);
        assert_eq!(at(link(0, 4, 1)), marked);
    }
    assert_eq!(asked(&section, spans(1, EVERY)), "spans 1 0:800");
    assert_eq!(asked(&section, spans(2, EVERY)), "contradiction 3");
}

/// By the new counting alone the gap is filled and the far item is bad.
#[test]
fn by_a_counting() {
    let said = |value| {
        let records = [
            counting(value),
            label(within(10), SAND, 4),
            both(3, 4, NEVER),
            put(has(6, SAND), 0),
            put(has(6, SAND), 10),
            put(has(6, 3), 5),
            tie(6, 1),
            query(has(1, EVERY), 0),
        ];
        answers(&records).remove(7)
    };
    assert_eq!(said(1), "yes");
    assert_eq!(said(2), "contradiction 6");
}

/// A section with a bad well and a clean one, in memory that held something before.
fn filled() -> Memory {
    let mut held = Held::default();
    let well = [put(has(0, SAND), 30), put(link(0, 0, 1), 40)];
    for record in [rule(), tie(2, 3), bad(3)].iter().chain(&well) {
        held.accept(record);
    }
    let mut memory = Memory::zeros(Lent::EXACT);
    memory.block = encode(&held);
    memory.labels.fill(u64::MAX);
    memory.links.fill(u8::MAX);
    memory.spans.fill(-7);
    memory
}

/// The tables show the whole collection whichever well is asked about.
#[test]
fn the_tables_show_all() {
    let after = |question: Record| {
        let mut memory = filled();
        record(&mut memory, &Lent::EXACT, &bytes(&question));
        (memory.labels, memory.links)
    };
    let clean = after(query(has(0, SAND), 30));
    assert_eq!(after(query(has(2, SAND), 30)), clean);
    assert_eq!(after(query(link(0, 0, 2), 30)), clean);
    assert_eq!(after(spans(0, SAND)), clean);
    assert_eq!(after(spans(3, SAND)), clean);
    let (labels, links) = clean;
    assert!(labels.iter().any(|entry| entry >> NEVER & 1 == 1));
    assert_eq!(links.iter().filter(|&&entry| entry != 0).count(), 2);
}

/// The record and the call beside the records: the buffer is written for the clean well alone.
#[test]
fn the_span_buffer() {
    let by_record = |item| {
        let mut memory = filled();
        let question = bytes(&spans(item, SAND));
        (record(&mut memory, &Lent::EXACT, &question).0, memory)
    };
    let by_call = |item: u8| {
        let mut memory = filled();
        let answer = spans_of(&mut memory, &Lent::EXACT, item.into(), SAND.into());
        (answer, memory)
    };
    for item in [0, 1, 2, 3, 15] {
        assert_eq!(by_record(item), by_call(item));
    }
    let (answer, memory) = by_call(0);
    assert_eq!(answer, Answer::Spans(1));
    assert_eq!(memory.spans[..3], [30, 30, -7]);
    let (answer, memory) = by_call(2);
    assert_eq!(answer, Answer::Contradiction(3));
    assert_eq!(memory.spans, [-7; 194]);
}
