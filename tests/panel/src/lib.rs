//! The exported C calls, over the model's memory type.

use model::service::{Lent, Memory};

extern "C" {
    fn harmikse_record(
        block: *mut u8,
        block_len: usize,
        labels: *mut u64,
        labels_len: usize,
        links: *mut u8,
        links_len: usize,
        spans: *mut i32,
        spans_len: usize,
        input: *const u8,
        input_len: usize,
        used: *mut u64,
    ) -> u32;

    fn harmikse_spans(
        block: *const u8,
        block_len: usize,
        labels: *mut u64,
        labels_len: usize,
        links: *mut u8,
        links_len: usize,
        spans: *mut i32,
        spans_len: usize,
        item: u32,
        label: u32,
    ) -> u32;

    fn harmikse_charge(
        block: *const u8,
        block_len: usize,
        labels: *mut u64,
        labels_len: usize,
        links: *mut u8,
        links_len: usize,
        lines: *const u32,
        lines_len: usize,
        item: u32,
        total: *mut u64,
    ) -> u32;
}

/// What goes with a length of 0: a null pointer, or one to where the memory would start.
#[derive(Clone, Copy, Debug, PartialEq, Eq)]
pub enum Empty {
    Null,
    Start,
}

impl Empty {
    fn pointer<T>(self, start: *const T, length: usize) -> *mut T {
        match self {
            Empty::Null if length == 0 => std::ptr::null_mut(),
            _ => start.cast_mut(),
        }
    }
}

/// Calls a function whose first arguments are the lent block and tables.
macro_rules! lend {
    ($function:ident, $memory:ident, $lent:ident, $empty:ident, $($rest:expr),+) => {{
        assert!($lent.block <= $memory.block.len() && $lent.labels <= $memory.labels.len());
        assert!($lent.links <= $memory.links.len() && $lent.spans <= $memory.spans.len());
        // SAFETY: every length was checked against its array, and the arrays are apart, as are the
        // other arguments. Where a length is 0 nothing is read or written.
        unsafe {
            $function(
                $empty.pointer($memory.block.as_mut_ptr(), $lent.block),
                $lent.block,
                $empty.pointer($memory.labels.as_mut_ptr(), $lent.labels),
                $lent.labels,
                $empty.pointer($memory.links.as_mut_ptr(), $lent.links),
                $lent.links,
                $($rest),+
            )
        }
    }};
}

/// The answer's number and its value.
pub type Numbers = (u32, u32);

fn numbers(returned: u32) -> Numbers {
    (returned / 65_536, returned % 65_536)
}

/// Handles one record; the answer and the bytes used.
pub fn record(memory: &mut Memory, lent: &Lent, input: &[u8], empty: Empty) -> (Numbers, u64) {
    let mut used = u64::MAX;
    let spans = empty.pointer(memory.spans.as_mut_ptr(), lent.spans);
    let (room, size) = (lent.spans, input.len());
    let start = empty.pointer(input.as_ptr(), size);
    let returned = lend!(
        harmikse_record,
        memory,
        lent,
        empty,
        spans,
        room,
        start,
        size,
        &mut used
    );
    (numbers(returned), used)
}

/// The span call beside the records.
pub fn spans(memory: &mut Memory, lent: &Lent, item: u32, label: u32, empty: Empty) -> Numbers {
    let spans = empty.pointer(memory.spans.as_mut_ptr(), lent.spans);
    let room = lent.spans;
    let returned = lend!(
        harmikse_spans,
        memory,
        lent,
        empty,
        spans,
        room,
        item,
        label
    );
    numbers(returned)
}

/// What a charge is asked for by: the host's numbers, of which the first so many are lent, and the
/// item. It may write the total and nothing else of it.
#[derive(Clone, Debug, PartialEq, Eq)]
pub struct Bill {
    pub numbers: Vec<u32>,
    pub lent: usize,
    pub item: u32,
    pub total: u64,
}

/// The charge beside the records. No span buffer is lent.
pub fn charge(memory: &mut Memory, lent: &Lent, bill: &mut Bill, empty: Empty) -> Numbers {
    let (size, item) = (bill.lent, bill.item);
    assert!(size <= bill.numbers.len());
    let start = empty.pointer(bill.numbers.as_mut_ptr(), size);
    let total = &mut bill.total;
    let returned = lend!(
        harmikse_charge,
        memory,
        lent,
        empty,
        start,
        size,
        item,
        total
    );
    numbers(returned)
}
