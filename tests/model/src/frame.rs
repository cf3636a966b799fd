//! Records as bytes: taking the first one off the input, reading its body, and writing one.

use crate::terms::{Fact, Hole, Mark, Operator, Record, Rule};

pub struct Frame<'a> {
    pub kind: u16,
    pub body: &'a [u8],
    pub used: usize,
}

/// A refused frame: its number and the bytes used.
pub type Broken = (u32, usize);

/// The length that a known kind asks for.
fn length_of(kind: u16) -> Option<usize> {
    let length = match kind {
        1 | 21 => 2,
        2 | 4 => 9,
        3 | 5 => 5,
        6 | 8 => 8,
        7 | 9 => 9,
        10 | 13 | 15 => 12,
        11 | 14 | 16 => 13,
        12 => 4,
        17 => 3,
        18 => 10,
        20 => 6,
        _ => return None,
    };
    Some(length)
}

/// The first record of an input that is not empty: refusals 3, 4 and 5.
pub fn split(input: &[u8]) -> Result<Frame<'_>, Broken> {
    let all = input.len();
    if all < 4 {
        return Err((3, all));
    }
    let length = usize::from(u16::from_le_bytes([input[0], input[1]]));
    if length < 2 || length > all - 2 {
        return Err((3, all));
    }
    let kind = u16::from_le_bytes([input[2], input[3]]);
    let used = length + 2;
    match length_of(kind) {
        None => Err((4, used)),
        Some(asked) if asked != length => Err((5, used)),
        Some(_) => Ok(Frame {
            kind,
            body: &input[4..used],
            used,
        }),
    }
}

/// The four bytes from `at` on.
pub fn four(bytes: &[u8], at: usize) -> [u8; 4] {
    bytes[at..at + 4].try_into().expect("four bytes")
}

fn eight(body: &[u8], at: usize) -> i64 {
    i64::from_le_bytes(body[at..at + 8].try_into().expect("eight bytes"))
}

/// The item and the label that the bytes start with.
pub fn label_fact(body: &[u8]) -> Fact {
    Fact::Label {
        item: body[0],
        label: body[1],
    }
}

/// The items and the link kind that the bytes start with.
pub fn link_fact(body: &[u8]) -> Fact {
    Fact::Link {
        from: body[0],
        kind: body[1],
        to: body[2],
    }
}

/// A mark with both ends at the depth behind its names.
fn point(fact: Fact, depth: &[u8]) -> Mark {
    Mark::point(fact, i32::from_le_bytes(four(depth, 0)))
}

/// The top and the bottom that the bytes start with.
fn ends(bytes: &[u8]) -> [i32; 2] {
    [0, 4].map(|at| i32::from_le_bytes(four(bytes, at)))
}

/// The bytes of a top and a bottom.
pub fn ends_bytes(ends: [i32; 2]) -> Vec<u8> {
    ends.map(i32::to_le_bytes).concat()
}

/// A mark whose top and bottom stand behind its names, as in a place of the block.
pub fn stretch(fact: Fact, bytes: &[u8]) -> Mark {
    let [top, bottom] = ends(bytes);
    Mark { fact, top, bottom }
}

/// A hole whose ends the bytes start with, as in the block.
pub fn hole(bytes: &[u8]) -> Hole {
    let [top, bottom] = ends(bytes);
    Hole { top, bottom }
}

fn rule(kind: u16, body: &[u8]) -> Rule {
    let (x, y, z) = (body[0], body[1], body[2]);
    let operator = || Operator {
        code: x,
        n: u32::from_le_bytes(four(body, 1)),
    };
    match kind {
        2 => Rule::Label {
            op: operator(),
            a: body[5],
            b: body[6],
        },
        3 => Rule::Both { a: x, b: y, c: z },
        4 => Rule::LinkRule {
            op: operator(),
            r: body[5],
            s: body[6],
        },
        _ => Rule::Via { r: x, a: y, b: z },
    }
}

/// The fields of a frame that `split` gave, in range or not.
pub fn read(frame: &Frame) -> Record {
    let body = frame.body;
    match frame.kind {
        1 => Record::Reset,
        2..=5 => Record::Rule(rule(frame.kind, body)),
        6 => Record::Put(point(label_fact(body), &body[2..])),
        7 => Record::Put(point(link_fact(body), &body[3..])),
        8 => Record::Take(point(label_fact(body), &body[2..])),
        9 => Record::Take(point(link_fact(body), &body[3..])),
        10 => Record::Query(label_fact(body), eight(body, 2)),
        11 => Record::Query(link_fact(body), eight(body, 3)),
        12 => Record::Spans {
            item: body[0],
            label: body[1],
        },
        13 => Record::Put(stretch(label_fact(body), &body[2..])),
        14 => Record::Put(stretch(link_fact(body), &body[3..])),
        15 => Record::Take(stretch(label_fact(body), &body[2..])),
        16 => Record::Take(stretch(link_fact(body), &body[3..])),
        17 => Record::Counting(body[0]),
        18 => Record::Hole(hole(body)),
        20 => Record::Shift(i32::from_le_bytes(four(body, 0))),
        _ => Record::Profile,
    }
}

/// A frame of any kind around any body.
pub fn framed(kind: u16, body: &[u8]) -> Vec<u8> {
    let length = (body.len() + 2) as u16;
    [&length.to_le_bytes(), &kind.to_le_bytes(), body].concat()
}

fn operator_body(op: Operator, from: u8, to: u8) -> Vec<u8> {
    [&[op.code][..], &op.n.to_le_bytes(), &[from, to]].concat()
}

fn rule_bytes(rule: &Rule) -> Vec<u8> {
    match *rule {
        Rule::Label { op, a, b } => framed(2, &operator_body(op, a, b)),
        Rule::Both { a, b, c } => framed(3, &[a, b, c]),
        Rule::LinkRule { op, r, s } => framed(4, &operator_body(op, r, s)),
        Rule::Via { r, a, b } => framed(5, &[r, a, b]),
    }
}

/// A fact and the bytes of its depths; a link's kind is one more than a label's.
fn fact_bytes(label_kind: u16, fact: Fact, depths: &[u8]) -> Vec<u8> {
    match fact {
        Fact::Label { item, label } => framed(label_kind, &[&[item, label], depths].concat()),
        Fact::Link { from, kind, to } => {
            framed(label_kind + 1, &[&[from, kind, to], depths].concat())
        }
    }
}

fn point_bytes(label_kind: u16, mark: &Mark) -> Vec<u8> {
    fact_bytes(label_kind, mark.fact, &mark.top.to_le_bytes())
}

fn stretch_bytes(label_kind: u16, mark: &Mark) -> Vec<u8> {
    fact_bytes(label_kind, mark.fact, &ends_bytes(mark.ends()))
}

/// The record as bytes: a mark with both ends equal by the kinds 6 to 9, another by 13 to 16.
pub fn bytes(record: &Record) -> Vec<u8> {
    match record {
        Record::Reset => framed(1, &[]),
        Record::Rule(rule) => rule_bytes(rule),
        Record::Put(mark) if mark.is_point() => point_bytes(6, mark),
        Record::Take(mark) if mark.is_point() => point_bytes(8, mark),
        Record::Put(_) | Record::Take(_) => wide_bytes(record),
        Record::Query(fact, depth) => fact_bytes(10, *fact, &depth.to_le_bytes()),
        Record::Spans { item, label } => framed(12, &[*item, *label]),
        Record::Counting(value) => framed(17, &[*value]),
        Record::Hole(hole) => framed(18, &ends_bytes(hole.ends())),
        Record::Shift(by) => framed(20, &by.to_le_bytes()),
        Record::Profile => framed(21, &[]),
    }
}

/// The same, but each mark by the kinds 13 to 16.
pub fn wide_bytes(record: &Record) -> Vec<u8> {
    match record {
        Record::Put(mark) => stretch_bytes(13, mark),
        Record::Take(mark) => stretch_bytes(15, mark),
        other => bytes(other),
    }
}
