//! Draws tops and bottoms of marks, alone and by those of a held mark.

use crate::source::Source;
use model::terms::{Mark, DEEPEST, SHALLOWEST};

impl Source {
    /// A point, or a stretch between two depths of which each may be at an edge.
    pub fn ends(&mut self) -> (i32, i32) {
        let depth = self.depth();
        if !self.dice.percent(self.plan.stretches) {
            return (depth, depth);
        }
        let short = depth.saturating_add(self.dice.between(1, 9) as i32);
        let (far, metres) = (self.depth(), self.metres_below(depth));
        let other = match self.dice.percent(self.plan.metres) {
            true => metres,
            false => self.dice.pick(&[short, far, far]),
        };
        match self.dice.percent(self.plan.reversed) {
            true => (depth.max(other), depth.min(other)),
            false => (depth.min(other), depth.max(other)),
        }
    }

    /// Ends of the pool: one as top after the other, some of the next few as bottom.
    pub fn ends_in_turn(&mut self, turn: usize) -> (i32, i32) {
        let at = turn % self.pool.len();
        if self.dice.percent(self.plan.metres) {
            return (self.pool[at], self.metres_below(self.pool[at]));
        }
        let steps = match self.dice.percent(self.plan.stretches) {
            true => self.dice.below(6) as usize,
            false => 0,
        };
        let last = self.pool.len() - 1;
        (self.pool[at], self.pool[last.min(at + steps)])
    }

    /// The same fact with ends that touch, overlap, nest, cover, share or reverse those of a mark,
    /// the last also out of range.
    pub fn beside(&mut self, mark: Mark) -> Mark {
        let Mark { fact, top, bottom } = mark;
        let more = self.dice.between(0, 6) as i32;
        let inside = self.dice.between(top.into(), bottom.into()) as i32;
        let (above, below) = (top - 1 - more, bottom + 1 + more);
        let ends = [
            (above, top - 1),
            (bottom + 1, below),
            (above, inside),
            (inside, below),
            (above, below),
            (inside, inside),
            (top, inside),
            (inside, bottom),
            (top, below),
            (above, bottom),
            (above, top),
            (bottom, below),
            (top, top),
            (top, top),
            (bottom, bottom),
            (bottom, top),
            (DEEPEST + 1 + more, top),
            (bottom, SHALLOWEST - 1 - more),
        ];
        let (top, bottom) = self.dice.pick(&ends);
        Mark { fact, top, bottom }
    }
}
