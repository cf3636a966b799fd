//! The charges of a stream: made to the archive and to the model alike, and to the archive with the
//! section as it is and moved, which must not change what is charged.

use crate::alike::{sections, tables_along};
use crate::charge_seen::Billed;
use crate::damage::WHOLE;
use crate::stream::{differing, Stream};
use crate::tally::Tally;
use model::block::encode;
use model::charge::{charge, charged, lines, Charge};
use model::derive::Collection;
use model::service::{Lent, Memory};
use panel::{Bill, Empty, Numbers};

/// A charge that the archive gives, and what it leaves of the bill.
fn send(memory: &mut Memory, bill: &Bill) -> (Numbers, Bill) {
    let mut left = bill.clone();
    let returned = panel::charge(memory, &WHOLE, &mut left, Empty::Start);
    (returned, left)
}

impl Stream {
    /// Makes the call on both sides and compares answer, total, lines and all memory. The total is
    /// as lent where none is given.
    pub fn compare_charge(
        &mut self,
        bill: &Bill,
        lent: &Lent,
        empty: Empty,
    ) -> Result<Charge, String> {
        let numbers = &bill.numbers[..bill.lent];
        let expected = charge(&mut self.model, lent, numbers, bill.item);
        let mut left = bill.clone();
        let returned = panel::charge(&mut self.real, lent, &mut left, empty);
        let wanted = Bill {
            total: expected.total(bill.total),
            ..bill.clone()
        };
        if returned != expected.numbers() || left != wanted {
            let total = left.total;
            let lines = left.numbers == bill.numbers;
            return Err(format!(
                "{expected} expected, {returned:?} given, total {total}, lines as lent: {lines}"
            ));
        }
        differing(&self.model, &self.real).map_or(Ok(expected), Err)
    }

    /// Tells the tally what the charge was and what it met.
    pub fn tell_charge(&self, billed: Billed, tally: &mut Tally) {
        tally.count(billed.answer.numbers());
        if billed.is_total() {
            let (links, items) = (&self.model.links, [billed.bill.item as u8; 2]);
            let number = billed.answer.numbers().0;
            tally.combined.see(&billed.shown, links, items, number);
        }
        tally.see_charge(&billed);
    }

    /// Asks for the same charge with the section as it is and moved: answer and total are the same,
    /// and both tables go along.
    pub fn charge_moved(&mut self, bill: &Bill, tally: &mut Tally) -> Result<(), String> {
        let (held, way) = self.section();
        let Some([mut here, mut there]) = sections(&self.real, &held, way) else {
            return Ok(());
        };
        let (wanted, given) = (send(&mut here, bill), send(&mut there, bill));
        let tables = tables_along(way, &held, &here, &there);
        if given != wanted || !tables {
            return Err(format!(
                "{way:?}: {wanted:?} expected, {given:?} given, tables alike: {tables}"
            ));
        }
        let listed = lines(&bill.numbers[..bill.lent]).unwrap_or_default();
        let answer = charged(&Collection::least(&held), bill.item as u8, &listed);
        let billed = Billed::new(&encode(&held), bill, WHOLE, Empty::Start, answer);
        tally.see_moved_charge(way, &billed);
        Ok(())
    }
}
