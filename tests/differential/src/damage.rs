//! Wrong bytes, wrong lengths and wrong blocks.

use crate::source::{Source, EDGE_DEPTHS};
use dice::Dice;
use model::block::{hole_bytes, mark_place, read, rule_place, COUNTING_AT, HOLE_AT, HOLE_ENDS_AT};
use model::block::{MARKS_AT, MARK_PLACE, PROFILE_AT, RULES_AT, RULE_PLACE, SIZE};
use model::frame::{four, framed};
use model::service::{Lent, Memory};
use model::short::{both, from_to, has, out_of_profile};
use model::terms::{Hole, Record, DEEPEST, EVERY, SHALLOWEST};

/// More than the least that is enough, so that tails can be watched.
pub const WHOLE: Lent = Lent {
    block: 4_224,
    labels: 3_120,
    links: 49_500,
    spans: 256,
};

fn random_bytes(dice: &mut Dice, count: u64) -> Vec<u8> {
    (0..count).map(|_| dice.word() as u8).collect()
}

/// Damages the bytes of one record, or leaves too few of them.
pub fn damage(dice: &mut Dice, mut bytes: Vec<u8>) -> Vec<u8> {
    let size = bytes.len() as u64;
    match dice.below(9) {
        0 => {
            let bit = dice.below(size * 8);
            bytes[(bit / 8) as usize] ^= 1 << (bit % 8);
        }
        1 => bytes.truncate(dice.below(size) as usize),
        2 => bytes[0] = dice.pick(&[0, 1, 2, 3, bytes[0] - 1, bytes[0] + 1, 255]),
        3 => bytes[1] = dice.pick(&[0, 1, 255]),
        4 => bytes[2] = dice.pick(&[0, 6, 12, 13, 14, 15, 16, 17, 18, 19, 20, 21, 22, 255]),
        5 => bytes[3] = dice.pick(&[1, 2, 128, 255]),
        6 => bytes = framed(u16::from(bytes[2]), &bytes[4..bytes.len().max(5) - 1]),
        7 => bytes = framed(u16::from(bytes[2]), &[&bytes[4..], &[1]].concat()),
        _ => {
            let count = dice.below(20);
            bytes = random_bytes(dice, count);
        }
    }
    bytes
}

/// The record's bytes with whatever may stand behind them.
pub fn with_rest(dice: &mut Dice, mut bytes: Vec<u8>) -> Vec<u8> {
    let rest = dice.pick(&[0, 0, 0, 1, 3, 17]);
    bytes.extend(random_bytes(dice, rest));
    bytes
}

/// Lengths that are enough, or now and then one that is short, or nothing at all.
pub fn lengths(source: &mut Source) -> Lent {
    let short = source.dice.percent(source.plan.short);
    let dice = &mut source.dice;
    let mut lent = dice.pick(&[Lent::EXACT, WHOLE]);
    if !short {
        return lent;
    }
    let exact = Lent::EXACT;
    let enough = [exact.block, exact.labels, exact.links, exact.spans];
    let which = dice.below(4) as usize;
    let length = dice.pick(&[0, 1, enough[which] / 2, enough[which] - 1]);
    match which {
        _ if dice.percent(10) => lent = Lent::NOTHING,
        0 => lent.block = length,
        1 => lent.labels = length,
        2 => lent.links = length,
        _ => lent.spans = length,
    }
    lent
}

/// Gives tables, span buffer and the block's tail any content.
pub fn refill(dice: &mut Dice, memory: &mut Memory) {
    let style = dice.pick(&[0, u64::MAX, 1]);
    let mut draw = || match style {
        1 => dice.word(),
        fixed => fixed,
    };
    memory.labels.fill_with(&mut draw);
    memory.spans.fill_with(|| draw() as i32);
    memory.block[SIZE..].fill_with(|| draw() as u8);
    let words = memory.links.chunks_mut(8);
    words.for_each(|word| word.copy_from_slice(&draw().to_le_bytes()[..word.len()]));
}

/// A place in the block where a changed byte is likely to matter.
fn likely(dice: &mut Dice, block: &[u8]) -> usize {
    let rules = u64::from(block[0].min(127)) + 1;
    let marks = u64::from(block[2]) + 1;
    let at = match dice.below(6) {
        0 => dice.below(4),
        1 => dice.below(RULES_AT as u64),
        2 | 3 => RULES_AT as u64 + dice.below(rules * RULE_PLACE as u64),
        4 => MARKS_AT as u64 + dice.below(marks * MARK_PLACE as u64),
        _ => dice.below(SIZE as u64),
    };
    at as usize
}

fn marks_of(block: &[u8]) -> usize {
    usize::from(u16::from_le_bytes([block[2], block[3]]))
}

/// Where a place of the block's marks starts; the first one where none is held.
fn some_mark(dice: &mut Dice, block: &[u8]) -> usize {
    let count = marks_of(block).max(1) as u64;
    MARKS_AT + MARK_PLACE * dice.below(count) as usize
}

/// Where a place of the block's rules starts; the first one where none is held.
fn some_rule(dice: &mut Dice, block: &[u8]) -> usize {
    let count = u64::from(block[0]).max(1);
    RULES_AT + RULE_PLACE * dice.below(count) as usize
}

/// Copies one place over another, which makes a double among the rules or the marks.
fn double(dice: &mut Dice, block: &mut [u8]) {
    let (from, to) = (some_rule(dice, block), some_rule(dice, block));
    match dice.below(2) {
        0 => block.copy_within(from..from + RULE_PLACE, to),
        _ => {
            let (from, to) = (some_mark(dice, block), some_mark(dice, block));
            block.copy_within(from..from + MARK_PLACE, to);
        }
    }
}

/// Adds a mark behind the last one, with ends that are new or not: a good block, unless a limit
/// is passed.
fn append(dice: &mut Dice, block: &mut [u8]) {
    let count = marks_of(block);
    let mut held = || i32::from_le_bytes(four(block, some_mark(dice, block) + dice.pick(&[4, 8])));
    let (one, other) = (held(), held());
    let fresh = dice.between(-9_000, 9_000) as i32;
    let ends = [
        (fresh, fresh),
        (fresh, fresh + 3),
        (fresh, one),
        (one, other),
    ];
    let (one, other) = dice.pick(&ends);
    let mark = from_to(has(0, 1), one.min(other), one.max(other));
    let at = MARKS_AT + MARK_PLACE * count;
    if at < SIZE {
        block[at..at + MARK_PLACE].copy_from_slice(&mark_place(&mark));
    }
    block[2..4].copy_from_slice(&(count as u16 + 1).to_le_bytes());
}

/// Exchanges a mark's ends, which is a good block only if they are equal.
fn turn_over(dice: &mut Dice, block: &mut [u8]) {
    let at = some_mark(dice, block);
    block[at + 4..at + MARK_PLACE].rotate_left(4);
}

/// Moves an end of a mark to an edge or by one.
fn move_end(dice: &mut Dice, block: &mut [u8]) {
    let at = some_mark(dice, block) + dice.pick(&[4, 8]);
    let now = i32::from_le_bytes(four(block, at));
    let edge = dice.pick(&EDGE_DEPTHS);
    let end = dice.pick(&[edge, edge, now.wrapping_add(1), now.wrapping_sub(1)]);
    block[at..at + 4].copy_from_slice(&end.to_le_bytes());
}

/// Moves an end of a mark a little out of range, from where a shift could bring it back.
fn push_out(dice: &mut Dice, block: &mut [u8]) {
    let (at, more) = (some_mark(dice, block), dice.between(1, 9) as i32);
    let (place, end) = dice.pick(&[(4, SHALLOWEST - more), (8, DEEPEST + more)]);
    block[at + place..at + place + 4].copy_from_slice(&end.to_le_bytes());
}

/// Lays a hole over what is held: around all marks, with one end a depth too short, out of range,
/// the wrong way round, or with its ends and no hole.
fn lay_hole(dice: &mut Dice, block: &mut [u8]) {
    let ends = read(block).unwrap_or_default().ends();
    let least = ends.first().copied().unwrap_or(0);
    let greatest = ends.last().copied().unwrap_or(0);
    let more = dice.between(0, 9) as i32;
    let choices = [
        (least, greatest),
        (least - more, greatest + more),
        (least + 1, greatest + more),
        (least - more, greatest - 1),
        (greatest + more, least),
        (SHALLOWEST - 1, greatest),
        (least, DEEPEST + 1),
        (SHALLOWEST, DEEPEST),
        (0, 0),
    ];
    let (top, bottom) = dice.pick(&choices);
    let laid = hole_bytes(Some(Hole { top, bottom }));
    block[HOLE_AT..HOLE_AT + laid.len()].copy_from_slice(&laid);
    block[HOLE_AT] = dice.pick(&[1, 1, 1, 1, 1, 0, 2]);
}

/// Lays a hole over a block from which all marks went, so that nothing but the hole can be wrong.
fn bare_hole(dice: &mut Dice, block: &mut [u8]) {
    block[2..4].fill(0);
    block[MARKS_AT..SIZE].fill(0);
    lay_hole(dice, block);
}

/// Changes a block's hole: whether there is one, the byte behind that, or its ends.
fn spoil_hole(dice: &mut Dice, block: &mut [u8]) {
    match dice.below(8) {
        0 => block[HOLE_AT] = dice.pick(&[0, 1, 2, 255]),
        1 => block[HOLE_AT + 1] = 1,
        2 | 3 => bare_hole(dice, block),
        4 => block[HOLE_ENDS_AT..HOLE_ENDS_AT + 8].rotate_left(4),
        _ => lay_hole(dice, block),
    }
}

/// Lays a rule that is not in the profile over a held one, or leaves no other.
fn lay_outside(dice: &mut Dice, block: &mut [u8]) {
    if block[0] == 0 || dice.percent(40) {
        block[..2].copy_from_slice(&[1, 0]);
        block[RULES_AT..MARKS_AT].fill(0);
    }
    let at = some_rule(dice, block);
    let any = dice.pick(&out_of_profile());
    if let Record::Rule(rule) = dice.pick(&[any, any, both(EVERY, EVERY, 2)]) {
        block[at..at + RULE_PLACE].copy_from_slice(&rule_place(&rule));
    }
}

/// Changes a block's profile: its byte, or a rule so that it is outside.
fn spoil_profile(dice: &mut Dice, block: &mut [u8]) {
    if dice.percent(60) {
        lay_outside(dice, block);
    }
    block[PROFILE_AT] = dice.pick(&[0, 1, 1, 1, 2, 2, 3, 255]);
}

/// Changes the block: a byte, an end, a double, one mark more, a setting, or everything.
pub fn spoil(dice: &mut Dice, block: &mut [u8]) {
    match dice.below(29) {
        0 => block.fill_with(|| dice.word() as u8),
        1 | 2 => double(dice, block),
        3 => block[..4].copy_from_slice(&[128, 0, 0, 1]),
        4 | 5 => append(dice, block),
        6 => turn_over(dice, block),
        7 | 8 => move_end(dice, block),
        9 => block[some_mark(dice, block)] = dice.pick(&[0, 6, 7, 8, 13, 14]),
        10 | 11 => block[COUNTING_AT] = dice.pick(&[0, 1, 2, 255]),
        12..=17 => spoil_hole(dice, block),
        18..=22 => spoil_profile(dice, block),
        23 => push_out(dice, block),
        _ => {
            let at = likely(dice, block);
            let now = block[at];
            let near = [now.wrapping_add(1), now.wrapping_sub(1), now ^ 64, 0, 255];
            block[at] = dice.pick(&near);
        }
    }
}
