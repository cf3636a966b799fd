//! What a shift, or a call right after one, is seen to be, for the cases of `shift_cases.rs`.

use crate::cases::{marked, Seen, DONE};
use model::derive::Collection;
use model::held::Held;
use model::terms::*;

/// A depth that a shift would take out of its range.
fn leaves(end: i32, by: i32) -> bool {
    let depth = i64::from(end) + i64::from(by);
    !(i64::from(SHALLOWEST)..=i64::from(DEEPEST)).contains(&depth)
}

/// Whether a mark's top would leave, and its bottom.
fn ends_leave(mark: &Mark, by: i32) -> [bool; 2] {
    mark.ends().map(|end| leaves(end, by))
}

impl Seen {
    /// A record of kind 20 with that answer, by a shift that fits.
    pub fn shift(&self, answer: Answer, fits: impl Fn(i32) -> bool) -> bool {
        matches!(self.record, Some(Record::Shift(by)) if self.answer == answer && fits(by))
    }

    /// A shift that was done, and moved something.
    pub fn shifted(&self) -> bool {
        self.moves() && self.shift(DONE, |by| by != 0)
    }

    /// One that was refused with 8.
    pub fn kept(&self) -> bool {
        self.shift(Answer::Refused(8), |_| true)
    }

    fn moves(&self) -> bool {
        !self.shown.movable().is_empty()
    }

    /// A shift with nothing to move, by a number that fits.
    pub fn nothing(&self, fits: fn(i32) -> bool) -> bool {
        !self.moves() && self.shift(DONE, fits)
    }

    pub fn no_hole(&self) -> bool {
        self.shown.hole.is_none()
    }

    /// A hole without marks.
    pub fn bare(&self) -> bool {
        self.shown.hole.is_some() && !marked(&self.shown)
    }

    /// A hole with marks.
    pub fn marked_hole(&self) -> bool {
        self.shown.hole.is_some() && marked(&self.shown)
    }

    /// A shift with that answer by which the shallowest depth comes to this one.
    pub fn top_to(&self, answer: Answer, depth: i32) -> bool {
        let ends = self.shown.movable();
        let to = |by| ends.first().is_some_and(|end| by == depth - end && by != 0);
        self.shift(answer, to)
    }

    /// The same with the deepest.
    pub fn bottom_to(&self, answer: Answer, depth: i32) -> bool {
        let ends = self.shown.movable();
        let to = |by| ends.last().is_some_and(|end| by == depth - end && by != 0);
        self.shift(answer, to)
    }

    /// A stretch has that outermost depth as this end.
    pub fn stretch_at(&self, end: fn(&Mark) -> i32, outermost: Option<i32>) -> bool {
        let mut stretches = self.shown.marks.iter().filter(|mark| !mark.is_point());
        stretches.any(|mark| Some(end(mark)) == outermost)
    }

    /// From the one end of the range, where the section lies, to the other.
    pub fn end_to_end(&self, [from, to]: [i32; 2]) -> bool {
        let ends = self.shown.movable();
        let lies = ends.first() == Some(&from) || ends.last() == Some(&from);
        lies && (self.top_to(DONE, to) || self.bottom_to(DONE, to))
    }

    /// A mark's end on one side of zero comes to the other.
    pub fn across_zero(&self, down: bool) -> bool {
        let crosses = |end: i32, by: i32| (end < 0) == down && (end + by < 0) != down;
        let across = |by| self.shown.ends().into_iter().any(|end| crosses(end, by));
        self.shifted() && self.shift(DONE, across)
    }

    /// A refused shift, where no hole is, by which the marks leave in a way that fits: for each of
    /// them whether its top leaves, and its bottom.
    pub fn kept_by(&self, fits: impl Fn(&[Mark], &[[bool; 2]]) -> bool) -> bool {
        let marks = &self.shown.marks;
        let by_marks = |by| {
            let leave: Vec<_> = marks.iter().map(|mark| ends_leave(mark, by)).collect();
            fits(marks, &leave)
        };
        self.no_hole() && self.shift(Answer::Refused(8), by_marks)
    }

    /// One mark of several alone, at a place that fits the last one's.
    pub fn kept_by_one(&self, fits: fn(usize, usize) -> bool) -> bool {
        self.kept_by(|marks, leave| {
            let places = || (0..marks.len()).filter(|&place| leave[place] != [false; 2]);
            let at = places().next().unwrap_or_default();
            marks.len() > 2 && places().count() == 1 && fits(at, marks.len() - 1)
        })
    }

    /// Links alone, or labels alone, though both are held.
    pub fn kept_by_sort(&self, link: bool) -> bool {
        self.kept_by(|marks, leave| {
            let of_sort = |mark: &Mark| mark.fact.is_link() == link;
            let stays = |place: usize| leave[place] == [false; 2];
            let mut places = 0..marks.len();
            places.all(|place| stays(place) || of_sort(&marks[place])) && !marks.iter().all(of_sort)
        })
    }

    /// A refused shift by which the hole's ends leave like this, and no mark does.
    pub fn kept_by_hole(&self, ends: [bool; 2]) -> bool {
        let marks = &self.shown.marks;
        let stay = |by| marks.iter().all(|mark| ends_leave(mark, by) == [false; 2]);
        let leave = |by| self.hole(|hole| hole.ends().map(|end| leaves(end, by)) == ends);
        marked(&self.shown) && self.shift(Answer::Refused(8), |by| stay(by) && leave(by))
    }

    /// Right after a shift by a number other than 0, which fits what was held before it.
    pub fn right_after(&self, fits: impl Fn(&Held) -> bool) -> bool {
        let Some(Record::Shift(by)) = self.last.filter(|last| *last != Record::Shift(0)) else {
            return false;
        };
        let before = by.checked_neg().and_then(|by| self.shown.shifted(by));
        before.is_some_and(|held| fits(&held))
    }

    /// An answer to a question right after a shift that moved something.
    pub fn asked_after(&self, answer: Answer) -> bool {
        let number = |answer: Answer| answer.numbers().0;
        let asked = self.query(|_, _| true);
        asked && number(self.answer) == number(answer) && self.right_after(|_| self.moves())
    }

    /// A question with that answer, which was another one at this depth before the shift.
    pub fn turned(&self, answer: Answer) -> bool {
        let had = |held: &Held, fact, depth| Collection::least(held).of(fact).has(depth);
        let other = answer == Answer::No;
        self.asked_after(answer)
            && self.right_after(|held| self.query(|fact, depth| had(held, fact, depth) == other))
    }

    /// Numbers written right after a shift that fit.
    pub fn spans_after(&self, fits: impl Fn(&[i32]) -> bool) -> bool {
        let written = !self.written.is_empty() && fits(&self.written);
        written && self.right_after(|_| self.moves())
    }

    /// A put with that answer, inside the hole as it lay before the shift or outside.
    pub fn put_by_moved_hole(&self, answer: Answer, was_inside: bool) -> bool {
        let inside = |hole: Hole, mark| hole.holds(&mark) == was_inside;
        self.right_after(|held| {
            let fits = |mark| held.hole.is_some_and(|hole| inside(hole, mark));
            self.put(answer, fits)
        })
    }

    /// A mark that was held before the shift.
    pub fn was_held(&self, mark: Mark) -> bool {
        self.right_after(|held| held.marks.contains(&mark))
    }
}
