//! What a call with a hole is seen to be, for the cases of `hole_cases.rs`.

use crate::cases::{marked, ruled, Seen, DONE};
use crate::distance::starts;
use model::block::{HOLE_AT, HOLE_ENDS_AT};
use model::held::Held;
use model::tables::representatives;
use model::terms::*;

/// A depth by the hole's.
pub type Depth = fn(Hole) -> i64;

pub fn top(hole: Hole) -> i64 {
    hole.top.into()
}

pub fn bottom(hole: Hole) -> i64 {
    hole.bottom.into()
}

pub fn above(hole: Hole) -> i64 {
    top(hole) - 1
}

pub fn below(hole: Hole) -> i64 {
    bottom(hole) + 1
}

pub fn of_one_depth(hole: Hole) -> bool {
    hole.top == hole.bottom
}

pub fn is_every(fact: Fact) -> bool {
    matches!(fact, Fact::Label { label: EVERY, .. })
}

/// Whether a mark reaches past the top, and past the bottom.
pub fn past(hole: Hole, mark: Mark) -> [bool; 2] {
    [mark.top < hole.top, mark.bottom > hole.bottom]
}

/// Whether an end lies outside, also of a mark the wrong way round.
pub fn outside(hole: Hole, mark: Mark) -> bool {
    let inside = |end: &i32| (hole.top..=hole.bottom).contains(end);
    !mark.ends().iter().all(inside)
}

impl Seen {
    /// A record of kind 18 with that answer, of a hole that fits.
    pub fn dug(&self, answer: Answer, fits: impl Fn(Hole) -> bool) -> bool {
        matches!(self.record, Some(Record::Hole(hole)) if self.answer == answer && fits(hole))
    }

    /// A hole is in force, and it fits.
    pub fn hole(&self, fits: impl Fn(Hole) -> bool) -> bool {
        self.shown.hole.is_some_and(fits)
    }

    pub fn is_dug(&self, hole: Hole) -> bool {
        self.shown.hole == Some(hole)
    }

    /// A put with that answer of a mark that fits the hole in force.
    pub fn put_in(&self, answer: Answer, fits: impl Fn(Hole, Mark) -> bool) -> bool {
        self.hole(|hole| self.put(answer, |mark| fits(hole, mark)))
    }

    pub fn take_in(&self, answer: Answer, fits: impl Fn(Hole, Mark) -> bool) -> bool {
        self.hole(|hole| self.take(answer, |mark| fits(hole, mark)))
    }

    /// A put that brings the marked depths to 96, of which the hole's ends are none.
    pub fn last_depth(&self) -> bool {
        self.put_in(DONE, |hole, mark| {
            let mut ends = self.shown.ends();
            let before = ends.len();
            ends.extend(mark.ends());
            let apart = hole.ends().iter().all(|end| !ends.contains(end));
            before < MAX_DEPTHS && ends.len() == MAX_DEPTHS && apart
        })
    }

    /// A question with a hole and that answer, about a fact at a depth that fits.
    pub fn asked(&self, answer: Answer, fits: impl Fn(Hole, Fact, i64) -> bool) -> bool {
        let in_hole = |fact, depth| self.hole(|hole| fits(hole, fact, depth));
        self.answer == answer && self.query(in_hole)
    }

    pub fn every_at(&self, answer: Answer, depth: Depth) -> bool {
        self.asked(answer, |hole, fact, asked| {
            is_every(fact) && asked == depth(hole)
        })
    }

    /// Asked about EVERY so far away that the depth doesn't fit 32 bits.
    pub fn every_far(&self, fits: fn(i64) -> bool) -> bool {
        self.asked(Answer::No, |_, fact, asked| {
            is_every(fact) && i32::try_from(asked).is_err() && fits(asked)
        })
    }

    /// Asked at a depth whose lower 32 bits are one of the hole's.
    pub fn every_cut(&self) -> bool {
        self.every_far(|_| true)
            && self.asked(Answer::No, |hole, _, asked| {
                (hole.top..=hole.bottom).contains(&(asked as i32))
            })
    }

    /// A question there about what that operator concludes of a held mark that is not there.
    pub fn operator_at(&self, code: u8, answer: Answer, depth: Depth) -> bool {
        self.asked(answer, |hole, fact, asked| {
            let away = |mark: Mark| i64::from(mark.top) > asked || i64::from(mark.bottom) < asked;
            let mut starts = starts(&self.shown);
            asked == depth(hole)
                && starts.any(|s| s.op.code == code && s.concluded == fact && away(s.mark))
        })
    }

    /// The same about links, by whichever operator reaches there.
    pub fn link_at(&self, answer: Answer, depth: Depth, codes: [u8; 2]) -> bool {
        let link = self.asked(answer, |_, fact, _| fact.is_link());
        link && codes
            .iter()
            .any(|&code| self.operator_at(code, answer, depth))
    }

    /// A contradiction, asked for at a depth that fits the hole.
    pub fn contradiction_at(&self, fits: fn(Hole, i64) -> bool) -> bool {
        matches!(self.answer, Answer::Contradiction(_))
            && self.asked(self.answer, |hole, _, asked| fits(hole, asked))
    }

    /// SPANS of a label with a hole, whose numbers fit.
    pub fn spans(&self, fits: impl Fn(Hole, u8, &[i32]) -> bool) -> bool {
        let Some(Record::Spans { label, .. }) = self.record else {
            return false;
        };
        let numbers = &self.written;
        !numbers.is_empty() && self.hole(|hole| fits(hole, label, numbers))
    }

    pub fn unmarked(&self, end: i32) -> bool {
        !self.shown.ends().contains(&end)
    }

    /// A span from the hole's top, where no mark ends.
    pub fn spans_from_top(&self) -> bool {
        self.spans(|hole, label, numbers| {
            label != EVERY && numbers[0] == hole.top && self.unmarked(hole.top)
        })
    }

    pub fn spans_to_bottom(&self) -> bool {
        self.spans(|hole, label, numbers| {
            let last = numbers[numbers.len() - 1];
            label != EVERY && last == hole.bottom && self.unmarked(hole.bottom)
        })
    }

    /// Two spans or more, from the hole's top to its bottom.
    pub fn spans_at_both_ends(&self) -> bool {
        self.spans(|hole, _, numbers| {
            let ends = [numbers[0], numbers[numbers.len() - 1]];
            numbers.len() > 2 && ends == hole.ends()
        })
    }

    /// What BETWEEN concludes goes from one end to the other, and no mark of it does.
    pub fn between_over(&self) -> bool {
        self.spans(|hole, label, numbers| {
            let over = |mark: Mark| mark.ends() == hole.ends();
            let mut starts = starts(&self.shown).filter(|s| s.op.code == BETWEEN);
            let concluded = |fact| matches!(fact, Fact::Label { label: b, .. } if b == label);
            numbers == hole.ends() && starts.any(|s| concluded(s.concluded) && !over(s.mark))
        })
    }

    /// Both tables were laid out, with that many pieces and distinct ends.
    pub fn laid_out(&self, fits: impl Fn(Hole, usize, usize) -> bool) -> bool {
        let refused = matches!(self.answer, Answer::Refused(_));
        let asks = matches!(
            self.record,
            Some(Record::Query(..)) | Some(Record::Spans { .. })
        );
        let pieces = || representatives(&self.shown).len();
        !refused && asks && self.hole(|hole| fits(hole, pieces(), self.shown.ends().len()))
    }

    /// A refused block with that byte 6, in which nothing else is wrong.
    pub fn bad_byte(&self, fits: fn(u8) -> bool) -> bool {
        fits(self.header[HOLE_AT]) && self.bad_block(Held::reachable)
    }

    /// A refused block with a byte behind that one which is not zero.
    pub fn byte_behind(&self) -> bool {
        self.header[HOLE_AT + 1] != 0 && self.bad_byte(|there| there < 2)
    }

    /// A refused block without a hole in which its ends are not zero.
    pub fn ends_alone(&self) -> bool {
        let ends = &self.header[HOLE_ENDS_AT..HOLE_ENDS_AT + 8];
        ends != [0; 8] && self.bad_byte(|there| there == 0)
    }

    /// A refused block with a hole that fits, and nothing wrong but for that.
    pub fn bad_hole(&self, fits: impl Fn(Hole) -> bool) -> bool {
        let without = Held {
            hole: None,
            ..self.shown.clone()
        };
        let there = self.header[HOLE_AT..HOLE_ENDS_AT] == [1, 0];
        there && self.hole(fits) && self.bad_block(|_| without.reachable())
    }

    /// A refused block with a good hole, past which marks reach in that way, by one.
    pub fn bad_mark_outside(&self, wanted: [bool; 2]) -> bool {
        self.bad_hole(|hole| {
            let marks = || self.shown.marks.iter();
            let reach = marks().fold([false; 2], |all, &mark| {
                let [above, below] = past(hole, mark);
                [all[0] || above, all[1] || below]
            });
            let by_one = |mark: &Mark| mark.top == hole.top - 1 || mark.bottom == hole.bottom + 1;
            Record::Hole(hole).refusal().is_none() && reach == wanted && marks().any(by_one)
        })
    }

    /// A block with a hole, rules and marks that was not turned away.
    pub fn good_hole(&self) -> bool {
        self.good_block() && self.hole(|_| true) && ruled(&self.shown) && marked(&self.shown)
    }
}
