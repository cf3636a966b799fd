//! Asks the archive about a section and about the same moved, by a record of kind 20 or with the line
//! reversed: each answer, the pairs and both tables have to go along.

use crate::damage::WHOLE;
use model::block::{encode, SIZE};
use model::frame::bytes;
use model::held::Held;
use model::moved::Move;
use model::service::Memory;
use model::tables::{representatives, PIECES};
use model::terms::*;
use panel::{Empty, Numbers};

/// A question that was asked on both lines, with what was said on the first.
pub struct Alike {
    pub held: Held,
    pub way: Move,
    pub question: Record,
    pub answer: Numbers,
    pub numbers: Vec<i32>,
}

fn send(memory: &mut Memory, record: &Record) -> Numbers {
    panel::record(memory, &WHOLE, &bytes(record), Empty::Start).0
}

/// The answer to a question and the numbers that it wrote.
fn ask(memory: &mut Memory, question: &Record) -> (Numbers, Vec<i32>) {
    let answer = send(memory, question);
    let written = match answer {
        (4, count) => 2 * count as usize,
        _ => 0,
    };
    (answer, memory.spans[..written].to_vec())
}

/// A row of a table on the other line: the same pieces, reversed from deep to shallow.
fn moved_row<T: Copy>(way: Move, row: &[T], pieces: usize) -> Vec<T> {
    let mut row = row.to_vec();
    if way == Move::Mirror {
        row[..pieces].reverse();
    }
    row
}

/// Whether all rows of a table went along.
fn went_along<T: Copy + PartialEq>(way: Move, pieces: usize, here: &[T], there: &[T]) -> bool {
    let rows = |table| <[T]>::chunks_exact(table, PIECES);
    let mut pairs = rows(here).zip(rows(there));
    pairs.all(|(here, there)| moved_row(way, here, pieces) == there)
}

/// Whether both tables went along with the section.
pub fn tables_along(way: Move, held: &Held, here: &Memory, there: &Memory) -> bool {
    let pieces = representatives(held).len();
    went_along(way, pieces, &here.labels[..16 * PIECES], &there.labels)
        && went_along(way, pieces, &here.links[..256 * PIECES], &there.links)
}

/// Memory with the section as it is, and with the section moved; none where a depth leaves its
/// range.
pub fn sections(real: &Memory, held: &Held, way: Move) -> Option<[Memory; 2]> {
    let moved = held.moved(way)?;
    let mut here = real.clone();
    here.block[..SIZE].copy_from_slice(&encode(held));
    let mut there = here.clone();
    if let Move::Shift(by) = way {
        send(&mut there, &Record::Shift(by));
    } else {
        there.block[..SIZE].copy_from_slice(&encode(&moved));
    }
    Some([here, there])
}

impl Alike {
    /// Asks on both lines; none where a depth leaves its range or the question 64 bits, or where it
    /// is no question. The text says what differs, if something does.
    pub fn ask(
        real: &Memory,
        held: Held,
        way: Move,
        question: Record,
    ) -> Result<Option<Alike>, String> {
        let proper = Some(question).filter(|question| question.refusal().is_none());
        let asked = proper.and_then(|question| way.question(question));
        let (Some([mut here, mut there]), Some(asked)) = (sections(real, &held, way), asked) else {
            return Ok(None);
        };
        let (answer, numbers) = ask(&mut here, &question);
        let (wanted, given) = ((answer, way.pairs(&numbers)), ask(&mut there, &asked));
        let tables = tables_along(way, &held, &here, &there);
        if given != wanted || !tables {
            return Err(format!(
                "{way:?}: {wanted:?} expected, {given:?} given, tables alike: {tables}"
            ));
        }
        Ok(Some(Alike {
            held,
            way,
            question,
            answer,
            numbers,
        }))
    }
}
