//! The charge by the metre: prices by hand, what is refused and in which order, what goes before a
//! total, and what the call leaves alone. That it stays the same in a section that is moved stands
//! in `moved.rs`, that marks elsewhere don't matter in `locality.rs`.

use model::charge::*;
use model::frame::bytes;
use model::service::{record, spans_of, Lent, Memory};
use model::short::*;
use model::terms::*;

const SAND: u8 = 1;
const GAS: u8 = 2;
const WATER: u8 = 3;

fn line(label: u8, price: u32, least: u32) -> Line {
    Line {
        label: label.into(),
        price,
        least,
    }
}

/// A charge behind these records.
fn charge_of(records: &[Record], item: u32, lines: &[Line]) -> Charge {
    let mut memory = after(records);
    charge(&mut memory, &Lent::EXACT, &numbers(lines), item)
}

/// A charge for item 0.
fn charged_for(records: &[Record], lines: &[Line]) -> Charge {
    charge_of(records, 0, lines)
}

/// Item 0 has sand from top to bottom.
fn sand(top: i32, bottom: i32) -> Record {
    put_from_to(has(0, SAND), top, bottom)
}

/// Gas and water at one depth of the item, which is a contradiction by `CLASH`.
fn bad(item: u8) -> [Record; 2] {
    [put(has(item, GAS), 40), put(has(item, WATER), 40)]
}

const CLASH: Record = Record::Rule(Rule::Both {
    a: GAS,
    b: WATER,
    c: NEVER,
});

#[test]
fn started_metres() {
    let expected = [
        (1, 1),
        (2, 1),
        (99, 1),
        (100, 1),
        (101, 2),
        (199, 2),
        (200, 2),
        (201, 3),
        (1_000, 10),
        (1_001, 11),
        (210_001, 2_101),
    ];
    for (length, metres) in expected {
        assert_eq!(line(SAND, 7, 0).cost(length), 7 * metres, "{length}");
        for top in [SHALLOWEST, DEEPEST - length as i32 + 1] {
            let records = [sand(top, top + length as i32 - 1)];
            let said = charged_for(&records, &[line(SAND, 7, 0)]);
            assert_eq!(said, Charge::Total(7 * metres as u64), "{top}, {length}");
        }
    }
}

/// Where a span lies does not matter, on either side of zero and across it.
#[test]
fn the_same_anywhere() {
    for top in [-10_000, -201, -101, -100, -99, -1, 0, 1, 99, 199_899] {
        let said = [100, 101].map(|length| {
            let records = [sand(top, top + length - 1)];
            charged_for(&records, &[line(SAND, 10, 0)])
        });
        assert_eq!(said, [Charge::Total(10), Charge::Total(20)], "{top}");
    }
}

/// 150 cm are two started metres: 2 x 250.
#[test]
fn the_larger_of_the_two() {
    let records = [sand(100, 249)];
    let total = |price, least| charged_for(&records, &[line(SAND, price, least)]);
    assert_eq!(total(250, 0), Charge::Total(500));
    assert_eq!(total(250, 499), Charge::Total(500));
    assert_eq!(total(250, 500), Charge::Total(500));
    assert_eq!(total(250, 501), Charge::Total(501));
    assert_eq!(total(0, 501), Charge::Total(501));
    assert_eq!(total(0, 0), Charge::Total(0));
    assert_eq!(total(1, 0), Charge::Total(2));
}

/// The least price is each span's own: 10 cm at 400, 150 cm at 500, one more centimetre at 400.
#[test]
fn each_span_by_itself() {
    let records = [sand(0, 9), sand(100, 249), sand(300, 300)];
    let said = charged_for(&records, &[line(SAND, 250, 400)]);
    assert_eq!(said, Charge::Total(400 + 500 + 400));
    // Two marks that touch are one span: 100 to 300 has 201 cm.
    let records = [sand(100, 249), sand(250, 300)];
    let said = charged_for(&records, &[line(SAND, 250, 400)]);
    assert_eq!(said, Charge::Total(750));
}

#[test]
fn several_lines() {
    let records = [sand(0, 99), put_from_to(has(0, GAS), 50, 150)];
    let lines = [line(SAND, 100, 0), line(GAS, 30, 70), line(WATER, 500, 900)];
    assert_eq!(charged_for(&records, &lines), Charge::Total(100 + 70));
    // A label counts as often as it is listed, each time at that line's prices.
    let twice = [lines[0], lines[1], lines[0], line(SAND, 1, 250)];
    let said = charged_for(&records, &twice);
    assert_eq!(said, Charge::Total(100 + 70 + 100 + 250));
    // The other items' labels don't count.
    assert_eq!(charge_of(&records, 1, &lines), Charge::Total(0));
}

/// Between 109 and 120 lie 11 cm, which WITHIN 11 fills by the new counting alone: 10 and 70 cm by
/// the old one, 90 cm by the new.
#[test]
fn derived_spans() {
    let rules = |value| [counting(value), label(within(11), SAND, GAS)];
    let marks = [sand(100, 109), sand(120, 189)];
    let said = |value| {
        let records = [&rules(value)[..], &marks].concat();
        charged_for(&records, &[line(GAS, 10, 0)])
    };
    assert_eq!([1, 2].map(said), [Charge::Total(20), Charge::Total(10)]);
}

#[test]
fn how_many_lines() {
    let records = [sand(0, 0)];
    let said = |count: usize| charged_for(&records, &vec![line(SAND, 3, 2); count]);
    assert_eq!(said(0), Charge::Total(0));
    assert_eq!(said(1), Charge::Total(3));
    assert_eq!(said(15), Charge::Total(45));
    assert_eq!(said(16), Charge::Total(48));
    assert_eq!(said(17), Charge::Refused(13));
    assert_eq!(said(20), Charge::Refused(13));
    assert_eq!(said(1_000), Charge::Refused(13));
}

#[test]
fn ranges_of_prices() {
    let records = [sand(0, 0)];
    let said = |price, least| charged_for(&records, &[line(SAND, price, least)]);
    for good in [0, 1, 999_999, 1_000_000] {
        assert_eq!(said(good, 0), Charge::Total(good.into()));
        assert_eq!(said(0, good), Charge::Total(good.into()));
    }
    for dear in [1_000_001, 1 << 31, u32::MAX] {
        assert_eq!(said(dear, 0), Charge::Refused(13));
        assert_eq!(said(0, dear), Charge::Refused(13));
        // Also where the label has no span, and in any line.
        let last = [line(SAND, 1, 1), line(WATER, 1, dear)];
        assert_eq!(charged_for(&records, &last), Charge::Refused(13));
        assert_eq!(charged_for(&[], &last), Charge::Refused(13));
    }
}

/// Of the marked depths, 96 at most, and the two ends of a hole each span takes one at least, and
/// a second unless it is a point. A point is a metre for one centimetre, so that 94 points and what
/// the hole leaves on either side of them cost most: 101 and 1,999 metres.
#[test]
fn the_largest_total() {
    let rules = [
        hole(SHALLOWEST, DEEPEST),
        label(whole(ABOVE), GAS, SAND),
        label(whole(BELOW), WATER, SAND),
        put(has(0, GAS), 0),
        put(has(0, WATER), 190),
    ];
    let points = (1..95).map(|place| sand(2 * place, 2 * place));
    let records: Vec<Record> = rules.into_iter().chain(points).collect();
    let most = line(SAND, MAX_PRICE, MAX_PRICE);
    let metres = 101 + 94 + 1_999;
    let one = charged_for(&records, &[most]);
    assert_eq!(one, Charge::Total(metres * 1_000_000));
    let all = charged_for(&records, &[most; MAX_LINES]);
    assert_eq!(all, Charge::Total(35_104_000_000));
    // No 97th depth can be marked.
    let mut memory = after(&records);
    let more = bytes(&sand(300, 300));
    let said = record(&mut memory, &Lent::EXACT, &more);
    assert_eq!(said.0, Answer::Refused(12));
}

/// Sand with a span and no end above, below, or on either side.
fn endless(code: u8) -> [Record; 2] {
    [label(whole(code), SAND, GAS), sand(100, 100)]
}

#[test]
fn open_on_either_side() {
    for code in [ABOVE, BELOW, ANYWHERE] {
        let records = endless(code);
        let said = |lines: &[Line]| charged_for(&records, lines);
        assert_eq!(said(&[line(GAS, 5, 5)]), Charge::Open);
        // Also where it would cost nothing, and in any line.
        assert_eq!(said(&[line(GAS, 0, 0)]), Charge::Open);
        assert_eq!(said(&[line(GAS, 0, 0), line(SAND, 5, 5)]), Charge::Open);
        assert_eq!(said(&[line(SAND, 5, 5), line(GAS, 0, 0)]), Charge::Open);
        // Only what is listed counts.
        assert_eq!(said(&[line(SAND, 5, 5)]), Charge::Total(5));
        assert_eq!(said(&[]), Charge::Total(0));
        assert_eq!(charge_of(&records, 1, &[line(GAS, 5, 5)]), Charge::Total(0));
    }
    // Beside a span with both ends: gas up to 100, and from 200 to 210.
    let records = [&endless(ABOVE)[..], &[put_from_to(has(0, GAS), 200, 210)]].concat();
    assert_eq!(charged_for(&records, &[line(GAS, 5, 5)]), Charge::Open);
}

#[test]
fn every_and_never_listed() {
    for records in [vec![], vec![sand(0, 0)]] {
        let said = |label| charged_for(&records, &[line(label, 5, 5)]);
        assert_eq!(said(EVERY), Charge::Open);
        assert_eq!(said(NEVER), Charge::Total(0));
    }
}

#[test]
fn in_a_hole() {
    let ends = [(-500, 3_000, 36), (7, 7, 1), (0, 99, 1), (0, 100, 2)];
    for (top, bottom, metres) in ends {
        let dug = hole(top, bottom);
        let every = [line(EVERY, 10, 0)];
        assert_eq!(charged_for(&[dug], &every), Charge::Total(10 * metres));
        // By ANYWHERE sand fills the hole, and no more.
        let records = [dug, label(whole(ANYWHERE), SAND, GAS), sand(top, top)];
        let said = charged_for(&records, &[line(GAS, 10, 0)]);
        assert_eq!(said, Charge::Total(10 * metres));
    }
    let records = [&[hole(0, 1_000)][..], &endless(ABOVE)].concat();
    let said = charged_for(&records, &[line(GAS, 10, 0)]);
    assert_eq!(said, Charge::Total(20));
}

/// Before open, and without lines too; after 6 and 13.
#[test]
fn contradiction_goes_first() {
    let records = [&[CLASH][..], &bad(0), &[sand(0, 50)]].concat();
    let said = |lines: &[Line]| charged_for(&records, lines);
    let clash = Charge::Contradiction(0);
    assert_eq!(said(&[]), clash);
    assert_eq!(said(&[line(SAND, 5, 5)]), clash);
    assert_eq!(said(&[line(EVERY, 5, 5)]), clash);
    assert_eq!(said(&[line(NEVER, 0, 0)]), clash);
    assert_eq!(said(&[line(64, 5, 5)]), Charge::Refused(6));
    assert_eq!(said(&[line(SAND, 1_000_001, 5)]), Charge::Refused(13));
    assert_eq!(said(&[line(SAND, 5, 5); 17]), Charge::Refused(13));
}

#[test]
fn contradiction_by_joined_items() {
    let records = [&[CLASH][..], &bad(9), &[sand(0, 99)]].concat();
    let lines = [line(SAND, 5, 0)];
    // Item 9 is not joined to item 0.
    assert_eq!(charged_for(&records, &lines), Charge::Total(5));
    assert_eq!(charge_of(&records, 9, &lines), Charge::Contradiction(9));
    assert_eq!(charge_of(&records, 8, &lines), Charge::Total(0));
    // By a chain, followed either way, at depths that have nothing in common.
    let chain = [put(link(4, 0, 0), 10), put(link(4, 7, 9), 900)];
    let joined = [&records[..], &chain].concat();
    for item in [0, 4, 9] {
        let said = charge_of(&joined, item, &lines);
        assert_eq!(said, Charge::Contradiction(9), "{item}");
    }
    let part = [&joined[..], &[take(link(4, 0, 0), 10)]].concat();
    assert_eq!(charged_for(&part, &lines), Charge::Total(5));
    // Open all the same.
    let open = [line(EVERY, 0, 0)];
    assert_eq!(charged_for(&part, &open), Charge::Open);
}

#[test]
fn six_before_thirteen() {
    let records = [sand(0, 99)];
    let good = line(SAND, 5, 0);
    let dear = line(SAND, 1_000_001, 0);
    let nameless = |label| Line { label, ..good };
    for item in [16, 255, 256, 256 + 3, 1 << 16, u32::MAX] {
        assert_eq!(charge_of(&records, item, &[]), Charge::Refused(6));
        assert_eq!(charge_of(&records, item, &[good]), Charge::Refused(6));
        assert_eq!(charge_of(&records, item, &[dear]), Charge::Refused(6));
        assert_eq!(charge_of(&records, item, &[good; 17]), Charge::Refused(6));
    }
    for label in [64, 255, 256, 256 + 1, 1 << 16, u32::MAX] {
        let bad = nameless(label);
        for lines in [&[bad][..], &[good, bad], &[bad, good], &[dear, bad]] {
            assert_eq!(charged_for(&records, lines), Charge::Refused(6));
        }
        // Each line is judged, also where it is one too many.
        let mut many = vec![good; 20];
        for place in [15, 16, 19] {
            many[place] = bad;
            assert_eq!(charged_for(&records, &many), Charge::Refused(6));
            many[place] = good;
        }
        assert_eq!(charged_for(&records, &many), Charge::Refused(13));
    }
    assert_eq!(charge_of(&records, 15, &[nameless(63)]), Charge::Total(0));
}

/// What a charge lends, and what it leaves of it.
fn asked(memory: &Memory, lent: &Lent, given: &[u32], item: u32) -> (Charge, Memory) {
    let mut left = memory.clone();
    let said = charge(&mut left, lent, given, item);
    (said, left)
}

/// Memory with any content behind these records, longer than need be.
fn filled(records: &[Record]) -> Memory {
    let more = 7;
    let mut memory = after(records);
    let exact = Lent::EXACT;
    memory.labels = vec![u64::MAX; exact.labels + more];
    memory.links = vec![77; exact.links + more];
    memory.spans = vec![-5; exact.spans + more];
    memory
}

/// A block that records lead to, and one that none do.
fn good_and_spoiled() -> [Memory; 2] {
    let good = filled(&[sand(0, 99)]);
    let mut spoiled = good.clone();
    spoiled.block[4] = 9;
    [good, spoiled]
}

/// Too little of anything, also where the block is spoiled.
#[test]
fn one_goes_first() {
    let exact = Lent::EXACT;
    let (block, labels, links) = (exact.block - 1, exact.labels - 1, exact.links - 1);
    let short = [
        Lent { block, ..exact },
        Lent { labels, ..exact },
        Lent { links, ..exact },
        Lent::NOTHING,
    ];
    let inside_a_line = [
        &[1][..],
        &[1, 5],
        &[1, 5, 0, 64],
        &[64; 50],
        &[u32::MAX; 52],
    ];
    for memory in good_and_spoiled() {
        for lent in &short {
            let said = asked(&memory, lent, &[1, 5, 0], 0);
            assert_eq!(said, (Charge::Refused(1), memory.clone()));
        }
        for given in inside_a_line {
            let said = asked(&memory, &exact, given, 99);
            assert_eq!(said, (Charge::Refused(1), memory.clone()));
        }
    }
}

/// Before 6 and 13.
#[test]
fn two_goes_next() {
    let [_, spoiled] = good_and_spoiled();
    let bills = [
        &[][..],
        &[1, 5, 0],
        &[64, 5, 0],
        &[1, 1_000_001, 0],
        &[1; 51],
    ];
    for (given, item) in bills
        .into_iter()
        .flat_map(|given| [(given, 0), (given, 16)])
    {
        let said = asked(&spoiled, &Lent::EXACT, given, item);
        assert_eq!(said, (Charge::Refused(2), spoiled.clone()));
    }
}

#[test]
fn no_span_buffer_is_asked_for() {
    let memory = filled(&[sand(0, 99)]);
    let lent = Lent {
        spans: 0,
        ..Lent::EXACT
    };
    assert_eq!(asked(&memory, &lent, &[1, 5, 0], 0).0, Charge::Total(5));
}

/// Tables, and nothing else, are as after the span call.
#[test]
fn tables_as_after_spans() {
    let clean = [label(whole(ABOVE), SAND, GAS), sand(0, 99)];
    let open = vec![line(GAS, 5, 0)];
    let clash = [&[CLASH][..], &bad(3), &[put(link(0, 0, 3), 7)]].concat();
    let charges = [
        (&clean[..], vec![line(SAND, 5, 0)], Charge::Total(5)),
        (&clean[..], vec![], Charge::Total(0)),
        (&clean[..], open, Charge::Open),
        (&clash[..], vec![], Charge::Contradiction(3)),
    ];
    for (records, lines, expected) in charges {
        let memory = filled(records);
        let (said, left) = asked(&memory, &Lent::EXACT, &numbers(&lines), 0);
        let mut wanted = memory.clone();
        spans_of(&mut wanted, &Lent::EXACT, 0, EVERY.into());
        wanted.spans.clone_from(&memory.spans);
        assert_eq!(said, expected);
        assert_eq!(left, wanted);
        assert_eq!(left.block, memory.block);
    }
}

#[test]
fn refusals_leave_all_as_lent() {
    let memory = filled(&[sand(0, 99)]);
    let refused = [
        (&[1, 5][..], 0, 1),
        (&[64, 5, 0], 0, 6),
        (&[1, 5, 0], 16, 6),
        (&[1, 1_000_001, 0], 0, 13),
        (&[1; 51], 0, 13),
    ];
    for (given, item, number) in refused {
        let (said, left) = asked(&memory, &Lent::EXACT, given, item);
        assert_eq!((said, left), (Charge::Refused(number), memory.clone()));
    }
}

/// Later calls see nothing of a charge: the same answers, and at the end the same memory.
#[test]
fn later_calls_see_nothing() {
    let records = worked_example();
    let (mut with, mut without) = (after(&[]), after(&[]));
    let bills = [(0, [4, 9, 0]), (0, [0, 9, 0]), (16, [4, 9, 0])];
    for input in records.iter().map(bytes) {
        for (item, given) in bills {
            charge(&mut with, &Lent::EXACT, &given, item);
        }
        let said = record(&mut with, &Lent::EXACT, &input);
        assert_eq!(said, record(&mut without, &Lent::EXACT, &input));
        assert_eq!(with.block, without.block);
    }
    let last = bytes(&spans(0, 4));
    let said = [&mut with, &mut without].map(|memory| record(memory, &Lent::EXACT, &last));
    assert_eq!(said[0], said[1]);
    assert_eq!(with, without);
}

#[test]
fn numbers_and_words() {
    let said = [
        (Charge::Total(1 << 40), (7, 0), "total 1099511627776"),
        (Charge::Open, (8, 0), "open"),
        (Charge::Contradiction(9), (3, 9), "contradiction 9"),
        (Charge::Refused(13), (6, 13), "refused 13"),
    ];
    for (charge, numbers, words) in said {
        assert_eq!(
            (charge.numbers(), &charge.to_string()[..]),
            (numbers, words)
        );
    }
    assert_eq!(Charge::Total(5).total(9), 5);
    assert_eq!(Charge::Open.total(9), 9);
    assert_eq!(Charge::Refused(6).total(9), 9);
}
