//! Short names for writing records down in tests, and the specification's worked example.

use crate::block::SIZE;
use crate::frame::bytes;
use crate::service::{record, Lent, Memory};
use crate::terms::*;

pub fn within(n: u32) -> Operator {
    Operator { code: WITHIN, n }
}

/// One of the operators without a distance.
pub fn whole(code: u8) -> Operator {
    Operator { code, n: 0 }
}

pub fn label(op: Operator, a: u8, b: u8) -> Record {
    Record::Rule(Rule::Label { op, a, b })
}

pub fn both(a: u8, b: u8, c: u8) -> Record {
    Record::Rule(Rule::Both { a, b, c })
}

pub fn link_rule(op: Operator, r: u8, s: u8) -> Record {
    Record::Rule(Rule::LinkRule { op, r, s })
}

pub fn via(r: u8, a: u8, b: u8) -> Record {
    Record::Rule(Rule::Via { r, a, b })
}

pub fn has(item: u8, label: u8) -> Fact {
    Fact::Label { item, label }
}

pub fn link(from: u8, kind: u8, to: u8) -> Fact {
    Fact::Link { from, kind, to }
}

pub fn put(fact: Fact, depth: i32) -> Record {
    Record::Put(Mark::point(fact, depth))
}

pub fn take(fact: Fact, depth: i32) -> Record {
    Record::Take(Mark::point(fact, depth))
}

/// A mark from top to bottom.
pub fn from_to(fact: Fact, top: i32, bottom: i32) -> Mark {
    Mark { fact, top, bottom }
}

pub fn put_from_to(fact: Fact, top: i32, bottom: i32) -> Record {
    Record::Put(from_to(fact, top, bottom))
}

pub fn take_from_to(fact: Fact, top: i32, bottom: i32) -> Record {
    Record::Take(from_to(fact, top, bottom))
}

pub fn query(fact: Fact, depth: i64) -> Record {
    Record::Query(fact, depth)
}

pub fn spans(item: u8, label: u8) -> Record {
    Record::Spans { item, label }
}

/// The counting by its number, which need not be one.
pub fn counting(value: u8) -> Record {
    Record::Counting(value)
}

/// A hole from top to bottom, which need not be one.
pub fn hole(top: i32, bottom: i32) -> Record {
    Record::Hole(Hole { top, bottom })
}

/// A shift of all marks and the hole.
pub fn shift(by: i32) -> Record {
    Record::Shift(by)
}

/// The memory after these records, from a block whose tail is filled.
pub fn after(records: &[Record]) -> Memory {
    let lent = Lent {
        block: SIZE + 9,
        ..Lent::EXACT
    };
    let mut memory = Memory::zeros(lent);
    memory.block[SIZE..].fill(7);
    for input in records {
        record(&mut memory, &lent, &bytes(input));
    }
    memory
}

/// For where any one rule is held.
pub const RULE: Record = Record::Rule(Rule::Both { a: 1, b: 2, c: 3 });

/// By these every item has NEVER at every depth.
pub fn never_everywhere() -> [Record; 2] {
    [label(within(1), EVERY, 1), label(within(1), 1, NEVER)]
}

/// A rule of each sort that is in the print profile.
pub fn in_profile() -> [Record; 13] {
    [
        label(within(1), 1, 2),
        label(within(MAX_N), 1, 2),
        label(whole(BETWEEN), 1, 2),
        both(1, 1, 2),
        both(1, 3, NEVER),
        both(EVERY, 1, 2),
        both(1, EVERY, 2),
        link_rule(within(1), 0, 1),
        link_rule(within(MAX_N), 0, 1),
        link_rule(whole(BETWEEN), 0, 1),
        via(0, 1, 2),
        via(0, EVERY, 2),
        via(7, EVERY, NEVER),
    ]
}

/// One of each sort that is not.
pub fn out_of_profile() -> [Record; 13] {
    [
        label(whole(ABOVE), 1, 2),
        label(whole(BELOW), 1, 2),
        label(whole(ANYWHERE), 1, 2),
        label(within(1), EVERY, 2),
        label(within(MAX_N), EVERY, 2),
        label(whole(BETWEEN), EVERY, 2),
        label(whole(ABOVE), EVERY, 2),
        label(whole(BELOW), EVERY, 2),
        label(whole(ANYWHERE), EVERY, 2),
        both(EVERY, EVERY, 2),
        link_rule(whole(ABOVE), 0, 1),
        link_rule(whole(BELOW), 0, 1),
        link_rule(whole(ANYWHERE), 0, 1),
    ]
}

/// Links 5 apart, which a rule fills by the new counting alone, and what follows from them.
pub fn links_5_apart(value: u8) -> [Record; 6] {
    [
        counting(value),
        link_rule(within(5), 0, 1),
        via(1, EVERY, 4),
        label(within(10), 4, 5),
        put(link(0, 0, 1), 10),
        put(link(0, 0, 1), 15),
    ]
}

/// Its last record puts a mark again.
pub fn worked_example() -> [Record; 11] {
    [
        label(within(11), 1, 1),
        label(within(20), 2, 3),
        both(1, 3, 4),
        put(has(0, 1), 100),
        put(has(0, 1), 109),
        put(has(0, 2), 104),
        put(has(0, 2), 123),
        query(has(0, 4), 106),
        query(has(0, 4), 110),
        spans(0, 4),
        put(has(0, 1), 100),
    ]
}
