//! The same section with other depths: moved along the line, or with the line reversed.

use crate::held::Held;
use crate::terms::*;
use std::collections::BTreeSet;

#[derive(Clone, Copy, Debug, PartialEq, Eq)]
pub enum Move {
    /// Each depth d becomes d + c.
    Shift(i32),
    /// Each depth d becomes -d, and what was above is below.
    Mirror,
}

/// A depth that a mark or a hole may have.
fn in_range(depth: i64) -> Option<i32> {
    let range = i64::from(SHALLOWEST)..=i64::from(DEEPEST);
    range.contains(&depth).then_some(depth as i32)
}

impl Move {
    /// Where a depth goes to; none where that is no 64-bit number.
    pub fn depth(self, depth: i64) -> Option<i64> {
        match self {
            Move::Shift(by) => depth.checked_add(by.into()),
            Move::Mirror => depth.checked_neg(),
        }
    }

    /// The same question at the depth where its own goes to.
    pub fn question(self, question: Record) -> Option<Record> {
        Some(match question {
            Record::Query(fact, depth) => Record::Query(fact, self.depth(depth)?),
            other => other,
        })
    }

    /// An end of a mark or of the hole; none where it leaves the range.
    fn end(self, end: i32) -> Option<i32> {
        self.depth(end.into()).and_then(in_range)
    }

    /// A top and a bottom. Reversed, the top comes from the bottom.
    fn ends(self, [top, bottom]: [i32; 2]) -> Option<[i32; 2]> {
        let ends = match self {
            Move::Shift(_) => [top, bottom],
            Move::Mirror => [bottom, top],
        };
        Some([self.end(ends[0])?, self.end(ends[1])?])
    }

    fn mark(self, mark: &Mark) -> Option<Mark> {
        let fact = mark.fact;
        let [top, bottom] = self.ends(mark.ends())?;
        Some(Mark { fact, top, bottom })
    }

    fn hole(self, hole: Hole) -> Option<Hole> {
        let [top, bottom] = self.ends(hole.ends())?;
        Some(Hole { top, bottom })
    }

    /// On the reversed line ABOVE and BELOW are exchanged.
    fn operator(self, op: Operator) -> Operator {
        let code = match (self, op.code) {
            (Move::Mirror, ABOVE) => BELOW,
            (Move::Mirror, BELOW) => ABOVE,
            (_, code) => code,
        };
        Operator { code, ..op }
    }

    fn rule(self, rule: Rule) -> Rule {
        let operator = |op| self.operator(op);
        match rule {
            Rule::Label { op, a, b } => Rule::Label {
                op: operator(op),
                a,
                b,
            },
            Rule::LinkRule { op, r, s } => Rule::LinkRule {
                op: operator(op),
                r,
                s,
            },
            Rule::Both { .. } | Rule::Via { .. } => rule,
        }
    }

    /// The numbers that SPANS writes on the other line: a missing end is still missing, and
    /// reversed the deepest pair comes first, each with its ends exchanged.
    pub fn pairs(self, numbers: &[i32]) -> Vec<i32> {
        let end = |end: i32| match (self, end) {
            (Move::Shift(_), i32::MIN | i32::MAX) => end,
            (Move::Shift(by), end) => end + by,
            (Move::Mirror, i32::MIN) => i32::MAX,
            (Move::Mirror, i32::MAX) => i32::MIN,
            (Move::Mirror, end) => -end,
        };
        let ends = numbers.iter().map(|&number| end(number));
        match self {
            Move::Shift(_) => ends.collect(),
            Move::Mirror => ends.rev().collect(),
        }
    }
}

impl Held {
    /// The depths that move: all ends of marks, and the hole's.
    pub fn movable(&self) -> BTreeSet<i32> {
        let hole = self.hole.iter().flat_map(Hole::ends);
        self.ends().into_iter().chain(hole).collect()
    }

    /// All marks, each in its place, and the hole; none where a depth leaves the range.
    pub fn moved(&self, way: Move) -> Option<Held> {
        let marks = self.marks.iter().map(|mark| way.mark(mark));
        let hole = match self.hole {
            Some(hole) => Some(way.hole(hole)?),
            None => None,
        };
        Some(Held {
            hole,
            rules: self.rules.iter().map(|&rule| way.rule(rule)).collect(),
            marks: marks.collect::<Option<_>>()?,
            ..self.clone()
        })
    }

    /// What a record of kind 20 leads to; none where it is refused.
    pub fn shifted(&self, by: i32) -> Option<Held> {
        self.moved(Move::Shift(by))
    }
}
