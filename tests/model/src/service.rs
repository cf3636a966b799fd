//! The record call and the span call over lent memory.

use crate::block;
use crate::depths::{Depths, NO_BOTTOM, NO_TOP};
use crate::derive::Collection;
use crate::frame;
use crate::held::Held;
use crate::tables::{self, LABEL_ENTRIES, LINK_ENTRIES};
use crate::terms::{Answer, Fact, Record, ITEMS, LABELS};

pub const SPAN_NUMBERS: usize = 194;

/// The host's whole memory, of which each call is lent the first elements.
#[derive(Clone, Debug, PartialEq, Eq)]
pub struct Memory {
    pub block: Vec<u8>,
    pub labels: Vec<u64>,
    pub links: Vec<u8>,
    pub spans: Vec<i32>,
}

impl Memory {
    pub fn zeros(lent: Lent) -> Memory {
        Memory {
            block: vec![0; lent.block],
            labels: vec![0; lent.labels],
            links: vec![0; lent.links],
            spans: vec![0; lent.spans],
        }
    }
}

/// How many elements of each memory a call is lent.
#[derive(Clone, Copy, Debug, PartialEq, Eq)]
pub struct Lent {
    pub block: usize,
    pub labels: usize,
    pub links: usize,
    pub spans: usize,
}

impl Lent {
    /// The least that is enough.
    pub const EXACT: Lent = Lent {
        block: block::SIZE,
        labels: LABEL_ENTRIES,
        links: LINK_ENTRIES,
        spans: SPAN_NUMBERS,
    };

    pub const NOTHING: Lent = Lent {
        block: 0,
        labels: 0,
        links: 0,
        spans: 0,
    };

    fn too_short(&self) -> bool {
        self.block < block::SIZE
            || self.labels < LABEL_ENTRIES
            || self.links < LINK_ENTRIES
            || self.spans < SPAN_NUMBERS
    }
}

/// What the lent block holds: refusals 1 and 2.
pub(crate) fn held_in(memory: &Memory, lent: &Lent) -> Result<Held, u32> {
    if lent.too_short() {
        return Err(1);
    }
    block::decode(&memory.block[..lent.block]).ok_or(2)
}

/// Handles the record at the start of the input; gives the answer and the bytes used.
pub fn record(memory: &mut Memory, lent: &Lent, input: &[u8]) -> (Answer, u64) {
    let held = match held_in(memory, lent) {
        Ok(held) => held,
        Err(number) => return (Answer::Refused(number), 0),
    };
    if input.is_empty() {
        return (Answer::End, 0);
    }
    let frame = match frame::split(input) {
        Ok(frame) => frame,
        Err((number, used)) => return (Answer::Refused(number), used as u64),
    };
    let answer = handle(memory, held, &frame::read(&frame));
    (answer, frame.used as u64)
}

fn handle(memory: &mut Memory, mut held: Held, record: &Record) -> Answer {
    if let Some(number) = record.refusal().or_else(|| held.refusal(record)) {
        return Answer::Refused(number);
    }
    match *record {
        Record::Query(fact, depth) => ask(memory, &held, fact, |_, set| match set.has(depth) {
            true => Answer::Yes,
            false => Answer::No,
        }),
        Record::Spans { item, label } => spans(memory, &held, item, label),
        _ => {
            held.accept(record);
            memory.block[..block::SIZE].copy_from_slice(&block::encode(&held));
            Answer::Done
        }
    }
}

/// Derives, and lays out both tables.
pub(crate) fn derive(memory: &mut Memory, held: &Held) -> Collection {
    let found = Collection::least(held);
    let depths = tables::representatives(held);
    memory.labels[..LABEL_ENTRIES].copy_from_slice(&tables::label_table(&found, &depths));
    memory.links[..LINK_ENTRIES].copy_from_slice(&tables::link_table(&found, &depths));
    found
}

/// Derives, lays out both tables and answers from the depths of what is asked, unless an item
/// joined to it is contradictory.
fn ask(
    memory: &mut Memory,
    held: &Held,
    asked: Fact,
    answer: impl Fn(&mut Memory, &Depths) -> Answer,
) -> Answer {
    let found = derive(memory, held);
    match found.contradiction(asked) {
        Some(item) => Answer::Contradiction(item.into()),
        None => answer(memory, found.of(asked)),
    }
}

fn spans(memory: &mut Memory, held: &Held, item: u8, label: u8) -> Answer {
    ask(memory, held, Fact::Label { item, label }, |memory, set| {
        let pairs = pairs(set);
        memory.spans[..pairs.len()].copy_from_slice(&pairs);
        Answer::Spans(pairs.len() as u32 / 2)
    })
}

/// Tops and bottoms as signed 32-bit numbers, the extreme ones for no end.
fn pairs(set: &Depths) -> Vec<i32> {
    let end = |depth: i64| match depth {
        NO_TOP => i32::MIN,
        NO_BOTTOM => i32::MAX,
        finite => finite as i32,
    };
    let runs = set.runs().iter();
    runs.flat_map(|&(top, bottom)| [end(top), end(bottom)])
        .collect()
}

/// The call beside the records: answers as SPANS does and leaves the block as it is.
pub fn spans_of(memory: &mut Memory, lent: &Lent, item: u32, label: u32) -> Answer {
    match held_in(memory, lent) {
        Err(number) => Answer::Refused(number),
        Ok(_) if item >= ITEMS.into() || label >= LABELS.into() => Answer::Refused(6),
        Ok(held) => spans(memory, &held, item as u8, label as u8),
    }
}
