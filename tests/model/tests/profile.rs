//! The print profile: which rules are in it, the record that switches it on, refusal 20, RESET, and
//! that by such rules nothing but EVERY holds beyond the marked depths.

use dice::Dice;
use model::block::{encode, PROFILE_AT};
use model::depths::Depths;
use model::derive::Collection;
use model::frame::{bytes, framed};
use model::held::Held;
use model::listing::{self, answers_to as answers, last_answer};
use model::service::{record, Lent, Memory};
use model::short::*;
use model::terms::*;

const ON: Record = Record::Profile;

/// What is said to the rule alone, to the rule behind kind 21, and to kind 21 behind the rule.
fn said_about(rule: Record) -> [String; 3] {
    [&[rule][..], &[ON, rule], &[rule, ON]].map(last_answer)
}

#[test]
fn rules_in_the_profile_and_out_of_it() {
    for rule in in_profile() {
        assert_eq!(said_about(rule), ["done"; 3], "{rule:?}");
    }
    for rule in out_of_profile() {
        let expected = ["done", "refused 20", "refused 20"];
        assert_eq!(said_about(rule), expected, "{rule:?}");
    }
}

/// Only label 0 is EVERY, and a BOTH rule has to name it twice.
#[test]
fn each_label_on_the_left() {
    let on = |rule| last_answer(&[ON, rule]);
    for a in EVERY..NEVER {
        let expected = if a == EVERY { "refused 20" } else { "done" };
        assert_eq!(on(label(within(1), a, 5)), expected);
        assert_eq!(on(both(a, a, 5)), expected);
        assert_eq!([both(a, 1, 5), both(1, a, 5)].map(on), ["done"; 2]);
        assert_eq!(on(via(3, a, 5)), "done");
    }
}

/// Wherever it stands in the list.
#[test]
fn one_rule_outside_is_enough() {
    for outside in out_of_profile() {
        for place in 0..=in_profile().len() {
            let mut rules = in_profile().to_vec();
            rules.insert(place, outside);
            let said = answers(&[&rules[..], &[ON, both(EVERY, EVERY, 9)]].concat());
            assert!(said[..rules.len()].iter().all(|line| line == "done"));
            // It was not switched on.
            assert_eq!(said[rules.len()..], ["refused 20", "done"]);
        }
    }
}

/// 6 and 7 go before 20.
#[test]
fn names_and_codes_go_first() {
    let operator = |code, n| Operator { code, n };
    let cases = [
        (label(whole(ABOVE), NEVER, 1), 6),
        (label(whole(ABOVE), 1, EVERY), 6),
        (label(within(1), EVERY, NEVER + 1), 6),
        (label(operator(BELOW, 1), EVERY, EVERY), 6),
        (both(EVERY, EVERY, EVERY), 6),
        (link_rule(whole(ANYWHERE), 0, KINDS), 6),
        (label(within(0), EVERY, 1), 7),
        (label(within(MAX_N + 1), EVERY, 1), 7),
        (label(operator(BETWEEN, 1), EVERY, 1), 7),
        (label(operator(ABOVE, 1), 1, 2), 7),
        (label(whole(6), EVERY, 1), 7),
        (link_rule(operator(ANYWHERE, 1), 0, 1), 7),
    ];
    for (rule, number) in cases {
        let refused = format!("refused {number}");
        assert_eq!(answers(&[rule, ON, rule]), [&refused, "done", &refused]);
    }
}

/// The rule of that number; all differ and are in the profile.
fn rule(number: u8) -> Record {
    both(1 + number / 62, 1 + number % 62, 5)
}

/// 20 goes before 11. A rule that is held while the profile is on is in it, so that is 9.
#[test]
fn all_places_taken() {
    let full: Vec<Record> = (0..128).map(rule).collect();
    let after = |set: &[Record], asked: Record| last_answer(&[&full, set, &[asked]].concat());
    for outside in out_of_profile() {
        assert_eq!(after(&[], outside), "refused 11");
        assert_eq!(after(&[ON], outside), "refused 20");
    }
    assert_eq!(after(&[ON], rule(128)), "refused 11");
    assert_eq!(after(&[ON], rule(127)), "refused 9");
    assert_eq!(after(&[], ON), "done");
    assert_eq!(after(&[ON], ON), "done");
    let last = out_of_profile()[0];
    let mixed = [&full[1..], &[last]].concat();
    let said = answers(&[&mixed[..], &[ON, last, rule(0), rule(1)]].concat());
    let expected = ["refused 20", "refused 9", "refused 11", "refused 9"];
    assert_eq!(said[128..], expected);
}

/// Whatever comes behind it, it stays on until RESET; it keeps the counting and the hole.
#[test]
fn how_long_it_stays_on() {
    let outside = label(whole(ABOVE), 1, 2);
    let between = [
        counting(2),
        hole(10, 30),
        label(within(5), 1, 2),
        put(has(0, 1), 12),
        put(has(0, 1), 17),
        ON,
        put(has(0, 1), 31),
        spans(0, 2),
        take(has(0, 1), 12),
        take(has(0, 1), 17),
        query(has(0, EVERY), 31),
        outside,
    ];
    for set in 0..3 {
        // Before, between and behind the counting and the hole.
        let mut records = between.to_vec();
        records.insert(set, ON);
        let said = answers(&records);
        assert!(said[..7].iter().all(|line| line == "done"));
        let expected = ["refused 16", "spans 1 12:17", "done", "done", "no"];
        assert_eq!(said[7..12], expected);
        assert_eq!(said[12], "refused 20");
        let behind = [Record::Reset, outside, spans(0, EVERY), ON];
        let said = answers(&[&records[..], &behind].concat());
        assert_eq!(said[13..], ["done", "done", "spans 1 *:*", "refused 20"]);
    }
}

/// Marks, hole and counting do not matter to kind 21, nor does a rule outside that was refused.
#[test]
fn switching_it_on() {
    let outside = both(EVERY, EVERY, 4);
    assert_eq!(answers(&[ON, ON, outside, ON]), STEPS);
    let set = [counting(2), hole(10, 30), put(has(3, 4), 20)];
    let said = answers(&[&set[..], &[ON, ON, outside, ON]].concat());
    assert_eq!(said[3..], STEPS);
    // Behind RESET the rules before it don't count.
    assert_eq!(last_answer(&[outside, Record::Reset, ON]), "done");
    // A counting is still refused behind rules, and a hole behind marks.
    let said = answers(&[ON, RULE, put(has(0, 1), 5), counting(2), hole(0, 9)]);
    assert_eq!(said[3..], ["refused 15", "refused 17"]);
}

const STEPS: [&str; 4] = ["done", "done", "refused 20", "done"];

#[test]
fn lengths_and_kinds() {
    let said = |kind, body: &[u8]| listing::answers(&framed(kind, body));
    assert_eq!(bytes(&ON), [2, 0, 21, 0]);
    assert_eq!(said(21, &[]), ["done"]);
    for length in [1, 2, 7, 300] {
        assert_eq!(said(21, &vec![0; length]), ["refused 5"]);
    }
    assert_eq!(listing::answers(&[1, 0, 21, 0]), ["refused 3"]);
    assert_eq!(listing::answers(&[2, 0, 21]), ["refused 3"]);
    for kind in [0, 19, 22, 23, 0x0115, 0x1500, u16::MAX] {
        assert_eq!(said(kind, &[]), ["refused 4"]);
    }
}

/// Kind 21 changes one byte of the block and nothing else; RESET clears it and leaves the tail.
#[test]
fn what_is_written() {
    let on = |records: &[Record]| {
        let mut memory = after(records);
        memory.block[PROFILE_AT] = 1;
        memory
    };
    let settings = [counting(2), hole(-5, 70)];
    let lists = [settings[0], settings[1], RULE, put(has(0, 1), 5)];
    for records in [&[][..], &settings, &lists] {
        assert_eq!(after(&[records, &[ON]].concat()), on(records));
        assert_eq!(after(&[records, &[ON, ON]].concat()), on(records));
        assert_eq!(after(&[&[ON], records].concat()), on(records));
        assert_eq!(after(&[records, &[ON, Record::Reset]].concat()), after(&[]));
        for outside in out_of_profile() {
            let learned = [records, &[outside]].concat();
            let refused = [&learned[..], &[ON]].concat();
            assert_eq!(after(&refused), after(&learned));
            assert_eq!(after(&[records, &[ON, outside]].concat()), on(records));
        }
    }
}

/// All that one of the first and one of the second are together.
fn product<A: Copy, B: Copy>(first: &[A], second: &[B]) -> Vec<(A, B)> {
    let with_each = |&one: &A| second.iter().map(move |&other| (one, other));
    first.iter().flat_map(with_each).collect()
}

/// All rules over few names, in the profile or not.
fn all_rules() -> Vec<Rule> {
    let near = [1, 4, 9].map(within);
    let far = [BETWEEN, ABOVE, BELOW, ANYWHERE].map(whole);
    let operators = [&near[..], &far].concat();
    let (left, concluded, kinds) = ([EVERY, 1, 2, 3], [1, 2, 3, NEVER], [0, 1]);
    let labels = product(&product(&operators, &left), &concluded).into_iter();
    let meetings = product(&product(&left, &left), &concluded).into_iter();
    let links = product(&product(&operators, &kinds), &kinds).into_iter();
    let ways = product(&product(&kinds, &left), &concluded).into_iter();
    let labels = labels.map(|((op, a), b)| Rule::Label { op, a, b });
    let both = meetings.map(|((a, b), c)| Rule::Both { a, b, c });
    let link_rules = links.map(|((op, r), s)| Rule::LinkRule { op, r, s });
    let via = ways.map(|((r, a), b)| Rule::Via { r, a, b });
    labels.chain(both).chain(link_rules).chain(via).collect()
}

/// What may be marked: labels and links of three items.
fn all_facts() -> Vec<Fact> {
    let items = [0, 1, 2];
    let labels = product(&items, &[1, 2, 3]).into_iter();
    let links = product(&product(&items, &[0, 1]), &items).into_iter();
    let labels = labels.map(|(item, label)| has(item, label));
    let links = links.map(|((from, kind), to)| link(from, kind, to));
    labels.chain(links).collect()
}

/// Whether all depths of the set lie between the margins; without them it has to be empty.
fn lies_between(set: &Depths, margins: Option<[i64; 2]>) -> bool {
    let between = |top, bottom| {
        let fits = |[least, greatest]: [i64; 2]| least <= top && bottom <= greatest;
        margins.is_some_and(fits)
    };
    set.runs().iter().all(|&(top, bottom)| between(top, bottom))
}

/// All labels but EVERY and all links, of all items.
fn all_but_every() -> impl Iterator<Item = Fact> {
    let labels = (0..ITEMS).flat_map(|item| (1..LABELS).map(move |label| has(item, label)));
    let links = pairs().flat_map(|(from, to)| (0..KINDS).map(move |kind| link(from, kind, to)));
    labels.chain(links)
}

/// A label but EVERY or a link that holds somewhere beyond the marked depths.
fn beyond(held: &Held) -> Option<Fact> {
    let (found, margins) = (Collection::least(held), held.outermost());
    all_but_every().find(|&fact| !lies_between(found.of(fact), margins))
}

/// By itself, with one mark or none, a rule gives something beyond the marked depths exactly if it
/// is not in the profile.
#[test]
fn one_rule_alone() {
    let marks = all_facts()
        .into_iter()
        .map(|fact| vec![Mark::point(fact, 10)]);
    let lists: Vec<Vec<Mark>> = [Vec::new()].into_iter().chain(marks).collect();
    for rule in all_rules() {
        let goes_beyond = lists.iter().any(|marks| {
            let held = Held {
                rules: vec![rule],
                marks: marks.clone(),
                ..Held::default()
            };
            beyond(&held).is_some()
        });
        assert_eq!(goes_beyond, !rule.in_profile(), "{rule:?}");
    }
}

/// For each sort of rule outside, in a row with `out_of_profile`, a mark or none and a question
/// beyond the marked depths.
#[test]
fn each_sort_outside_reaches_beyond() {
    let seen = [put(has(0, 1), 10)];
    let tied = [put(link(0, 0, 1), 10)];
    let concluded = |depth| query(has(0, 2), depth);
    let led = |depth| query(link(0, 1, 1), depth);
    let cases: [(&[Record], Record); 13] = [
        (&seen, concluded(9)),
        (&seen, concluded(11)),
        (&seen, concluded(i64::MIN)),
        (&[], concluded(0)),
        (&seen, concluded(9)),
        (&seen, concluded(11)),
        (&[], concluded(i64::MIN)),
        (&[], concluded(i64::MAX)),
        (&tied, concluded(11)),
        (&seen, concluded(9)),
        (&tied, led(9)),
        (&tied, led(11)),
        (&tied, led(i64::MAX)),
    ];
    for (rule, (marks, question)) in out_of_profile().into_iter().zip(cases) {
        let said = last_answer(&[&[rule], marks, &[question]].concat());
        assert_eq!(said, "yes", "{rule:?}");
    }
}

/// Rules of the profile, which is on or off, and marks, with either counting, a hole or none.
fn section(seed: u64, rules: &[Rule], facts: &[Fact]) -> Held {
    let mut dice = Dice::new(seed);
    let mut held = Held {
        counting: dice.pick(&[Counting::Old, Counting::New]),
        hole: dice.pick(&[
            None,
            None,
            Some(Hole {
                top: -3,
                bottom: 21,
            }),
        ]),
        profile: dice.percent(50),
        ..Held::default()
    };
    (0..dice.between(1, 12)).for_each(|_| held.offer(&Record::Rule(dice.pick(rules))));
    (0..dice.pick(&[0, 1, 3, 8])).for_each(|_| {
        let (top, more) = (dice.between(-3, 20) as i32, dice.pick(&[0, 0, 1, 6]));
        held.offer(&Record::Put(from_to(dice.pick(facts), top, top + more)));
    });
    held
}

/// Whether a fact that no mark has holds at both margins, so that it reaches as far as it may.
fn reaches(held: &Held, [least, greatest]: [i64; 2]) -> bool {
    let found = Collection::least(held);
    let marked = |fact| held.marks.iter().any(|mark| mark.fact == fact);
    let at_both = |fact| found.of(fact).has(least) && found.of(fact).has(greatest);
    least < greatest && all_but_every().any(|fact| !marked(fact) && at_both(fact))
}

const SECTIONS: u64 = 4_000;

/// Many rules together are as tight as one.
#[test]
fn nothing_holds_beyond_the_marked_depths() {
    let (mut rules, facts) = (all_rules(), all_facts());
    rules.retain(|rule| rule.in_profile());
    let (mut bare, mut reaching) = (0, 0);
    for seed in 0..SECTIONS {
        let held = section(seed, &rules, &facts);
        assert!(held.reachable() && held.in_profile());
        assert_eq!(beyond(&held), None, "seed {seed}: {held:?}");
        bare += u64::from(held.marks.is_empty());
        reaching += u64::from(held.outermost().is_some_and(|both| reaches(&held, both)));
    }
    assert!(bare > 500 && reaching > 250, "{bare} {reaching}");
}

/// The same lists with one rule outside go beyond now and then.
#[test]
fn one_rule_more_goes_beyond() {
    let facts = all_facts();
    let (inside, outside): (Vec<Rule>, Vec<Rule>) =
        all_rules().into_iter().partition(|rule| rule.in_profile());
    let goes_beyond = |seed: u64| {
        let mut held = section(seed, &inside, &facts);
        held.profile = false;
        held.offer(&Record::Rule(outside[seed as usize % outside.len()]));
        beyond(&held).is_some()
    };
    let count = (0..SECTIONS).filter(|&seed| goes_beyond(seed)).count();
    assert!(count > 1_000, "{count}");
}

/// An answer and the numbers that it wrote.
fn ask(memory: &mut Memory, question: &Record) -> (Answer, Vec<i64>) {
    let (answer, _) = record(memory, &Lent::EXACT, &bytes(question));
    let written = match answer {
        Answer::Spans(count) => 2 * count as usize,
        _ => 0,
    };
    let numbers = memory.spans[..written].iter();
    (answer, numbers.map(|&end| i64::from(end)).collect())
}

/// Questions beyond the margins are answered no or contradiction, and without marks no.
fn check_queries(held: &Held, memory: &mut Memory, fact: Fact) {
    let [least, greatest] = held.outermost().unwrap_or([1, -1]);
    for depth in [i64::MIN, least - 1, greatest + 1, i64::MAX] {
        let (answer, _) = ask(memory, &query(fact, depth));
        let contradiction = matches!(answer, Answer::Contradiction(_));
        let in_order = answer == Answer::No || contradiction && !held.marks.is_empty();
        assert!(in_order, "{fact:?} at {depth}: {answer:?} by {held:?}");
    }
}

/// The pairs of a label's spans lie between the margins, and without marks there are none.
fn check_spans(held: &Held, memory: &mut Memory, item: u8, label: u8) {
    let (answer, numbers) = ask(memory, &spans(item, label));
    let Some([least, greatest]) = held.outermost() else {
        return assert_eq!(answer, Answer::Spans(0));
    };
    let inside = |end: &i64| least <= *end && *end <= greatest;
    assert!(numbers.iter().all(inside), "{item} {label}: {held:?}");
}

/// The same through the calls, where the profile is on and where it is off.
#[test]
fn answers_beyond_the_marked_depths() {
    let (mut rules, facts) = (all_rules(), all_facts());
    rules.retain(|rule| rule.in_profile());
    for seed in 0..300 {
        let held = section(seed, &rules, &facts);
        let mut memory = Memory::zeros(Lent::EXACT);
        memory.block = encode(&held);
        let mut dice = Dice::new(seed);
        (0..3).for_each(|_| check_queries(&held, &mut memory, dice.pick(&facts)));
        for label in [1, 2, 3, NEVER] {
            check_spans(&held, &mut memory, dice.below(3) as u8, label);
        }
    }
}

/// Block, tables, answer and pairs are the same whether it is on or off, but for its byte.
#[test]
fn it_changes_no_answer() {
    let rules = in_profile();
    let marks = [
        put_from_to(has(0, 1), 5, 9),
        put(has(1, 3), 7),
        put_from_to(link(1, 0, 0), 6, 8),
        put(link(0, 0, 1), 30),
    ];
    let questions = [
        query(has(0, 2), 9),
        query(has(0, 2), 10),
        query(link(1, 1, 0), 7),
        spans(0, 2),
        spans(2, EVERY),
    ];
    // A link of kind 7 makes the item contradictory that it leads from.
    for bad in [&[][..], &[put(link(0, 7, 2), 20)]] {
        let off = [&rules, bad, &marks, &questions].concat();
        let on = [&[ON], &off[..]].concat();
        assert_eq!(answers(&on)[1..], answers(&off));
        let mut without = after(&on);
        assert_eq!(std::mem::replace(&mut without.block[PROFILE_AT], 0), 1);
        assert_eq!(without, after(&off));
    }
}
