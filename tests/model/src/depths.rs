//! Sets of depths over all integers, kept as their longest runs from shallow to deep.

use crate::terms::{Counting, Operator, ABOVE, BELOW, BETWEEN, WITHIN};

/// "No end" on either side. Finite ends stay near the marks, so these never meet one.
pub const NO_TOP: i64 = i64::MIN;
pub const NO_BOTTOM: i64 = i64::MAX;

#[derive(Clone, Debug, Default, PartialEq, Eq)]
pub struct Depths {
    runs: Vec<(i64, i64)>,
}

impl Depths {
    /// The depths from top to bottom, both included; the top is not the deeper one.
    pub fn run(top: i64, bottom: i64) -> Depths {
        Depths {
            runs: vec![(top, bottom)],
        }
    }

    pub fn one(depth: i64) -> Depths {
        Depths::run(depth, depth)
    }

    pub fn all() -> Depths {
        Depths::run(NO_TOP, NO_BOTTOM)
    }

    pub fn is_empty(&self) -> bool {
        self.runs.is_empty()
    }

    pub fn runs(&self) -> &[(i64, i64)] {
        &self.runs
    }

    pub fn has(&self, depth: i64) -> bool {
        let mut runs = self.runs.iter();
        runs.any(|&(top, bottom)| top <= depth && depth <= bottom)
    }

    pub fn union(&self, other: &Depths) -> Depths {
        let mut runs: Vec<_> = self.runs.iter().chain(&other.runs).copied().collect();
        runs.sort_unstable();
        // Neighbouring integers (difference under 2) belong to one run.
        join(runs, 2)
    }

    pub fn meet(&self, other: &Depths) -> Depths {
        let (mut mine, mut theirs) = (self.runs.iter().peekable(), other.runs.iter().peekable());
        let mut runs = Vec::new();
        while let (Some(&&a), Some(&&b)) = (mine.peek(), theirs.peek()) {
            let (top, bottom) = (a.0.max(b.0), a.1.min(b.1));
            runs.extend((top <= bottom).then_some((top, bottom)));
            if a.1 < b.1 {
                mine.next();
            } else {
                theirs.next();
            }
        }
        Depths { runs }
    }

    /// What the operator gives on this set: the specification's table, row by row, with WITHIN by
    /// the counting.
    pub fn under(&self, op: Operator, counting: Counting) -> Depths {
        let (Some(&(least, _)), Some(&(_, greatest))) = (self.runs.first(), self.runs.last())
        else {
            return Depths::default();
        };
        match op.code {
            // A missing depth's nearest j and k are the ends of the runs beside it.
            WITHIN => join(self.runs.clone(), counting.bound(op.n)),
            BETWEEN => Depths::run(least, greatest),
            ABOVE => Depths::run(NO_TOP, greatest),
            BELOW => Depths::run(least, NO_BOTTOM),
            _ => Depths::all(),
        }
    }
}

/// Joins sorted runs where a top minus the bottom before it is under `reach`.
fn join(runs: Vec<(i64, i64)>, reach: i64) -> Depths {
    let mut joined: Vec<(i64, i64)> = Vec::with_capacity(runs.len());
    for (top, bottom) in runs {
        match joined.last_mut() {
            Some(last) if top.saturating_sub(last.1) < reach => last.1 = last.1.max(bottom),
            _ => joined.push((top, bottom)),
        }
    }
    Depths { runs: joined }
}
