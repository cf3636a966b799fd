//! An input of exactly as many bytes as the program takes.

use model::frame::bytes;
use model::listing::MAX_INPUT;
use model::short::*;
use model::terms::{Record, EVERY};

/// 4,680 questions of 14 bytes, two of 6, and a reset of 4 at the end.
pub fn full() -> Vec<u8> {
    let questions = (0..4_680).map(|depth| query(has(0, EVERY), depth));
    let rest = [spans(15, EVERY), spans(15, 1), Record::Reset];
    let stream: Vec<u8> = questions
        .chain(rest)
        .flat_map(|record| bytes(&record))
        .collect();
    assert_eq!(stream.len(), MAX_INPUT);
    stream
}
