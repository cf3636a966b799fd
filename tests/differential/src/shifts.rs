//! Draws shifts of all depths, and records right after one about what lies elsewhere now.

use crate::distance::{starts, Start};
use crate::source::Source;
use model::held::Held;
use model::terms::*;

/// Numbers that bring no mark to a depth in range.
const FAR: [i32; 10] = [
    i32::MIN,
    i32::MIN,
    i32::MIN + 1,
    -(1 << 24),
    -210_001,
    210_001,
    1 << 24,
    i32::MAX - 1,
    i32::MAX,
    i32::MAX,
];

/// The mark as it lay before a shift.
fn before(mark: Mark, by: i32) -> Mark {
    Mark {
        top: mark.top.saturating_sub(by),
        bottom: mark.bottom.saturating_sub(by),
        ..mark
    }
}

impl Source {
    /// The usual depths start here, wherever they went with shifts.
    pub fn top(&self) -> i64 {
        self.plan.top + self.along
    }

    /// The usual depths go along with a shift, unless all of them would leave the range.
    pub fn go_along(&mut self, by: i32) {
        let along = self.along + i64::from(by);
        let [least, greatest] = [SHALLOWEST, DEEPEST].map(i64::from);
        let in_range = |depth: i64| least <= depth && depth <= greatest;
        let places = || self.drawn.iter().map(|&depth| i64::from(depth) + along);
        if places().any(in_range) {
            let held = places().map(|depth| depth.clamp(least, greatest) as i32);
            self.pool = held.collect();
            self.along = along;
        }
    }

    /// A small shift, one back, one that brings a depth to an end of the range, one past it or to
    /// zero, or one that is too far for anything.
    pub fn amount(&mut self, held: &Held) -> i32 {
        let (near, far) = (self.dice.between(-40, 40) as i32, self.dice.pick(&FAR));
        let ends: Vec<i32> = held.movable().into_iter().collect();
        let (Some(least), Some(greatest)) = (ends.first(), ends.last()) else {
            return self.dice.pick(&[near, far]);
        };
        let (up, down) = (SHALLOWEST - least, DEEPEST - greatest);
        let end = self.dice.pick(&ends);
        match self.dice.below(16) {
            0..=4 => near,
            5 | 6 => self.shifted.unwrap_or(near).wrapping_neg(),
            7..=11 => self.dice.pick(&[up, up - 1, down, down + 1]),
            12 => self.dice.pick(&[SHALLOWEST - end, DEEPEST - end]),
            13 => self.dice.pick(&[-end, -end - 1, 0]),
            14 => self.dice.word() as i32,
            _ => far,
        }
    }

    /// A shift, or now and then a reset or a mark less, so that a hole moves alone, or nothing.
    pub fn shift(&mut self, held: &Held) -> Record {
        match self.dice.below(30) {
            0 => Record::Reset,
            1 if !held.marks.is_empty() => Record::Take(self.dice.pick(&held.marks)),
            2 => Record::Put(self.mark()),
            _ => Record::Shift(self.amount(held)),
        }
    }

    /// A mark where it lies now, or where it lay.
    fn mark_behind(&mut self, held: &Held, by: i32) -> Record {
        let mark = self.mark_or_held(held, 100);
        let mark = self.dice.pick(&[mark, before(mark, by)]);
        self.dice.pick(&[Record::Put(mark), Record::Take(mark)])
    }

    /// A mark at an end of the hole as it lies now, or as it lay.
    fn mark_by_hole(&mut self, hole: Hole, by: i32) -> Record {
        let lay = hole.ends().map(|end| end.saturating_sub(by));
        let depth = self.dice.pick(&[hole.top, hole.bottom, lay[0], lay[1]]);
        Record::Put(Mark::point(self.fact(1), depth))
    }

    /// A label that ABOVE or BELOW concludes of a held mark, if there is one.
    pub fn half_open(&mut self, held: &Held) -> Option<Fact> {
        let half_open = |s: &Start| [ABOVE, BELOW].contains(&s.op.code) && !s.concluded.is_link();
        let all: Vec<Start> = starts(held).filter(half_open).collect();
        (!all.is_empty()).then(|| self.dice.pick(&all).concluded)
    }

    /// Spans of what may hold, often with no end on one side.
    fn spans_behind(&mut self, held: &Held) -> Record {
        let likely = self.likely_fact(held);
        let half_open = self.half_open(held).unwrap_or(likely);
        match self.dice.pick(&[likely, half_open]) {
            Fact::Label { item, label } => Record::Spans { item, label },
            Fact::Link { from: item, .. } => Record::Spans { item, label: EVERY },
        }
    }

    /// A question for the section as it is and moved: the one that was asked, or one about what may
    /// hold, far away or with its spans.
    pub fn asked_again(&mut self, held: &Held, question: Record) -> Record {
        let far = [i64::MIN, i64::MIN + 1, -(1 << 40), 1 << 40, i64::MAX];
        let far = self.dice.pick(&far);
        match self.dice.below(6) {
            0 => Record::Query(self.concluded_fact(held), far),
            1 | 2 => self.spans_behind(held),
            _ => question,
        }
    }

    /// A setting that a shift leaves as it was, or a rule that goes by one.
    fn setting_behind(&mut self, held: &Held) -> Record {
        let hole = self.hole();
        let given = Record::Hole(held.hole.unwrap_or(hole));
        let counting = Record::Counting(self.dice.pick(&[1, 2]));
        let rule = Record::Rule(self.edge_rule());
        self.dice.pick(&[given, Record::Hole(hole), counting, rule])
    }

    /// Right after a shift by so much: a mark, a setting, a question or another shift.
    pub fn behind_shift(&mut self, held: &Held, by: i32) -> Record {
        match (self.dice.below(16), held.hole) {
            (0..=2, _) => self.mark_behind(held, by),
            (3, Some(hole)) => self.mark_by_hole(hole, by),
            (3 | 4, _) => self.setting_behind(held),
            (5, _) => Record::Reset,
            (6 | 7, _) => Record::Shift(self.amount(held)),
            (8..=10, _) => self.question_at(held),
            (11, _) => Record::Query(self.likely_fact(held), self.asked_depth()),
            (12, _) => self.margin(held),
            _ => self.spans_behind(held),
        }
    }
}
