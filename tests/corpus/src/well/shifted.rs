//! The sections of a well whose cable zero moves: stretch corrections among the marks, with the same
//! questions before and behind, and at last the whole section at either end of the range.

use super::*;
use model::moved::Move;

impl Well {
    /// A shift before the rules, in most sections before anything is marked, so that it moves a hole
    /// or nothing.
    pub(super) fn shift_early(&mut self) {
        if self.dice.percent(50) {
            let by = self.dice.pick(&[i32::MIN, -900, 60, 2_500, i32::MAX]);
            self.shift(by);
            self.send(spans(0, EVERY));
        }
    }

    /// Drills with corrections in between.
    pub(super) fn drill_and_correct(&mut self) {
        let parts = self.dice.between(2, 4) as u64;
        for _ in 0..parts {
            (0..self.size.marks / parts + 1).for_each(|_| self.drill());
            self.correct();
        }
    }

    /// Shifts, and what was drilled lies where it is held then, the bit below it.
    fn shift(&mut self, by: i32) {
        let held = self.held();
        self.send(shift(by));
        if held.movable().is_empty() || held.shifted(by).is_none() {
            return;
        }
        self.depth += i64::from(by);
        for mark in &mut self.marks {
            (mark.top, mark.bottom) = (mark.top + by, mark.bottom + by);
        }
        if let Some(hole) = held.hole {
            self.hole = (hole.top + by, hole.bottom + by);
        }
    }

    /// A label that was seen or may follow, at depths of a mark and beside it, and its spans.
    fn asked(&mut self) -> Vec<Record> {
        let near = self.dice.pick(&self.marks);
        let depth = self.depth_of(near) + self.dice.pick(&[0, 0, -1, 1, 40]);
        let [item, _] = near.fact.items();
        let label = self.dice.between(0, i64::from(HOUSE) + 5) as u8;
        let far = self.dice.pick(&[i64::MIN, -5_000_000_000, i64::MAX]);
        vec![
            query(near.fact, depth),
            query(has(item, label), depth),
            query(has(item, CASED), far),
            spans(item, label),
            spans(item, self.dice.pick(&[CASED, WET, UNIT])),
        ]
    }

    /// A correction by a few centimetres or metres: questions, the shift, the same questions moved,
    /// and one at the old depth. Now and then it was a mistake and is taken back.
    fn correct(&mut self) {
        let by = self.dice.pick(&[-250, -31, -1, 1, 4, 75, 600]);
        let asked = self.asked();
        self.send_all(asked.clone());
        self.shift(by);
        let moved = |&question: &Record| Move::Shift(by).question(question);
        self.send_all(asked.iter().filter_map(moved).collect());
        self.send(asked[0]);
        if self.dice.percent(25) {
            self.shift(-by);
            self.send_all(asked);
        }
    }

    /// A shift that is too far, by the outermost depth, by every depth or by any number; what is
    /// none; or a mark taken where it was before the last one.
    pub(super) fn shift_mistake(&mut self, sort: u64) {
        let ends = self.held().movable();
        let up = ends.first().map_or(0, |least| SHALLOWEST - 1 - least);
        let down = ends.last().map_or(0, |greatest| DEEPEST + 1 - greatest);
        let far = [up, down, -210_001, 210_001, i32::MIN, i32::MAX];
        let by = self.dice.pick(&far);
        let length = self.dice.pick(&[3, 5]);
        match sort {
            28 | 29 => self.send(shift(by)),
            30 => self.stream.extend(framed(20, &vec![1; length])),
            _ => {
                let Mark { fact, top, bottom } = self.dice.pick(&self.marks);
                self.send(take_from_to(fact, top - 75, bottom - 75));
            }
        }
    }

    /// The whole section up to the shallowest depth, down to the deepest, and back: one more is too
    /// far either way.
    pub(super) fn go_to_the_ends(&mut self) {
        let ends = self.held().movable();
        let Some((&least, &greatest)) = ends.first().zip(ends.last()) else {
            return;
        };
        let (up, down) = (SHALLOWEST - least, DEEPEST - greatest);
        for (too_far, by) in [(up - 1, up), (down - up + 1, down - up)] {
            self.shift(too_far);
            self.shift(by);
            let asked = self.asked();
            self.send_all(asked);
        }
        self.shift(-down);
        let asked = self.asked();
        self.send_all(asked);
    }
}
