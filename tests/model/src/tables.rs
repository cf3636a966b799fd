//! The label and link tables: the only place that speaks of pieces of the line.

use crate::depths::Depths;
use crate::derive::Collection;
use crate::held::Held;
use crate::terms::{pairs, ITEMS, KINDS, LABELS};
use std::collections::BTreeSet;

pub const PIECES: usize = 193;
pub const LABEL_ENTRIES: usize = 16 * PIECES;
pub const LINK_ENTRIES: usize = 16 * 16 * PIECES;

/// One depth for each piece, shallow to deep. A piece is a marked depth, which is an end of a
/// mark, or starts behind one, but for the first, which ends before the least. In a hole the first
/// starts at its top instead, and none starts outside.
pub fn representatives(held: &Held) -> Vec<i64> {
    let marked: BTreeSet<i64> = held.ends().into_iter().map(i64::from).collect();
    let before = marked.first().map_or(0, |least| least - 1);
    let first = held.hole.map_or(before, |hole| hole.top.into());
    let behind: BTreeSet<i64> = marked.iter().map(|depth| depth + 1).collect();
    let mut all = &marked | &behind;
    all.insert(first);
    let exist = held.exist();
    all.into_iter().filter(|&depth| exist.has(depth)).collect()
}

/// Which pieces a set has, by their number.
fn pieces_of<'a>(set: &'a Depths, depths: &'a [i64]) -> impl Iterator<Item = usize> + 'a {
    let numbered = depths.iter().enumerate();
    numbered
        .filter(|(_, &depth)| set.has(depth))
        .map(|(piece, _)| piece)
}

/// Sets the bit in the entries of all pieces that the set has.
fn lay(row: &mut [u64], bit: u8, set: &Depths, depths: &[i64]) {
    if !set.is_empty() {
        pieces_of(set, depths).for_each(|piece| row[piece] |= 1 << bit);
    }
}

fn label_row(collection: &Collection, item: u8, depths: &[i64]) -> [u64; PIECES] {
    let mut row = [0; PIECES];
    (0..LABELS).for_each(|label| lay(&mut row, label, collection.label(item, label), depths));
    row
}

fn link_row(collection: &Collection, from: u8, to: u8, depths: &[i64]) -> [u64; PIECES] {
    let mut row = [0; PIECES];
    (0..KINDS).for_each(|kind| lay(&mut row, kind, collection.link(from, kind, to), depths));
    row
}

pub fn label_table(collection: &Collection, depths: &[i64]) -> Vec<u64> {
    (0..ITEMS)
        .flat_map(|item| label_row(collection, item, depths))
        .collect()
}

pub fn link_table(collection: &Collection, depths: &[i64]) -> Vec<u8> {
    pairs()
        .flat_map(|(from, to)| link_row(collection, from, to, depths))
        .map(|entry| entry as u8)
        .collect()
}
