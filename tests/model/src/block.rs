//! The state block as docs/STATE.md lays it out.

use crate::frame::{ends_bytes, four, hole, label_fact, link_fact, stretch};
use crate::held::Held;
use crate::terms::{Counting, Fact, Hole, Mark, Operator, Rule, MAX_MARKS, MAX_RULES};

pub const SIZE: usize = 4_128;
pub const COUNTING_AT: usize = 4;
pub const PROFILE_AT: usize = 5;
pub const HOLE_AT: usize = 6;
pub const HOLE_ENDS_AT: usize = 8;
pub const RULES_AT: usize = 32;
pub const MARKS_AT: usize = 1_056;
pub const RULE_PLACE: usize = 8;
pub const MARK_PLACE: usize = 12;

pub fn rule_place(rule: &Rule) -> Vec<u8> {
    let (head, n) = match *rule {
        Rule::Label { op, a, b } => ([2, op.code, a, b], op.n),
        Rule::Both { a, b, c } => ([3, a, b, c], 0),
        Rule::LinkRule { op, r, s } => ([4, op.code, r, s], op.n),
        Rule::Via { r, a, b } => ([5, r, a, b], 0),
    };
    [head, n.to_le_bytes()].concat()
}

/// The place of a mark, by whichever kind it was put.
pub fn mark_place(mark: &Mark) -> Vec<u8> {
    let head = match mark.fact {
        Fact::Label { item, label } => [6, item, label, 0],
        Fact::Link { from, kind, to } => [7, from, kind, to],
    };
    [&head[..], &ends_bytes(mark.ends())].concat()
}

/// Bytes 6 to 15: whether there is a hole, a zero byte, and its ends.
pub fn hole_bytes(hole: Option<Hole>) -> Vec<u8> {
    let there = u8::from(hole.is_some());
    let ends = hole.map_or([0, 0], |hole| hole.ends());
    [&[there, 0][..], &ends_bytes(ends)].concat()
}

pub fn encode(held: &Held) -> Vec<u8> {
    let rules: Vec<u8> = held.rules.iter().flat_map(rule_place).collect();
    let marks: Vec<u8> = held.marks.iter().flat_map(mark_place).collect();
    let mut block = vec![0; SIZE];
    block[..2].copy_from_slice(&(held.rules.len() as u16).to_le_bytes());
    block[2..4].copy_from_slice(&(held.marks.len() as u16).to_le_bytes());
    block[COUNTING_AT] = match held.counting {
        Counting::Old => 0,
        Counting::New => 1,
    };
    block[PROFILE_AT] = u8::from(held.profile);
    block[HOLE_AT..HOLE_ENDS_AT + 8].copy_from_slice(&hole_bytes(held.hole));
    block[RULES_AT..RULES_AT + rules.len()].copy_from_slice(&rules);
    block[MARKS_AT..MARKS_AT + marks.len()].copy_from_slice(&marks);
    block
}

fn read_rule(place: &[u8]) -> Option<Rule> {
    let (x, y, z) = (place[1], place[2], place[3]);
    let op = Operator {
        code: x,
        n: u32::from_le_bytes(four(place, 4)),
    };
    match place[0] {
        2 => Some(Rule::Label { op, a: y, b: z }),
        3 => Some(Rule::Both { a: x, b: y, c: z }),
        4 => Some(Rule::LinkRule { op, r: y, s: z }),
        5 => Some(Rule::Via { r: x, a: y, b: z }),
        _ => None,
    }
}

fn read_mark(place: &[u8]) -> Option<Mark> {
    let fact = match place[0] {
        6 => label_fact(&place[1..]),
        7 => link_fact(&place[1..]),
        _ => return None,
    };
    Some(stretch(fact, &place[4..]))
}

fn read_hole(block: &[u8]) -> Option<Hole> {
    (block[HOLE_AT] != 0).then(|| hole(&block[HOLE_ENDS_AT..]))
}

/// The lists as the places show them; none where a count or a place's kind is none. Any counting
/// but 0 is read as the new one, and any byte but 0 as a hole, or as a profile that is on; `decode`
/// shows whether they are.
pub fn read(block: &[u8]) -> Option<Held> {
    let rules = usize::from(u16::from_le_bytes([block[0], block[1]]));
    let marks = usize::from(u16::from_le_bytes([block[2], block[3]]));
    if rules > MAX_RULES || marks > MAX_MARKS {
        return None;
    }
    let rule_places = block[RULES_AT..MARKS_AT].chunks(RULE_PLACE).take(rules);
    let mark_places = block[MARKS_AT..SIZE].chunks(MARK_PLACE).take(marks);
    let counting = match block[COUNTING_AT] {
        0 => Counting::Old,
        _ => Counting::New,
    };
    Some(Held {
        counting,
        hole: read_hole(block),
        profile: block[PROFILE_AT] != 0,
        rules: rule_places.map(read_rule).collect::<Option<_>>()?,
        marks: mark_places.map(read_mark).collect::<Option<_>>()?,
    })
}

/// The lists that a block of at least `SIZE` bytes holds; none where no run of records leads to it.
pub fn decode(block: &[u8]) -> Option<Held> {
    let held = read(block)?;
    // Encoding again shows stray bytes: unused fields, free places, the settings.
    (held.reachable() && encode(&held) == block[..SIZE]).then_some(held)
}
