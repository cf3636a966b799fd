//! Records about two marks whose distance a held WITHIN judges, so that the counting decides.

use crate::source::Source;
use model::held::Held;
use model::terms::{Fact, Mark, Operator, Record, Rule, WITHIN};

/// A mark from which a held rule's operator starts, and what the rule concludes of it.
#[derive(Clone, Copy)]
pub struct Start {
    pub mark: Mark,
    pub op: Operator,
    pub concluded: Fact,
}

/// What a rule with an operator concludes of the mark's fact, if it starts from that.
fn start(rule: &Rule, mark: Mark) -> Option<Start> {
    let (op, concluded) = match (*rule, mark.fact) {
        (Rule::Label { op, a, b }, Fact::Label { item, label }) if a == label => {
            (op, Fact::Label { item, label: b })
        }
        (Rule::LinkRule { op, r, s }, Fact::Link { from, kind, to }) if r == kind => {
            (op, Fact::Link { from, kind: s, to })
        }
        _ => return None,
    };
    Some(Start {
        mark,
        op,
        concluded,
    })
}

/// All held marks from which an operator of a held rule starts, by rule.
pub fn starts(held: &Held) -> impl Iterator<Item = Start> + '_ {
    let of_rule = |rule| held.marks.iter().filter_map(move |&mark| start(rule, mark));
    held.rules.iter().flat_map(of_rule)
}

/// Those of a WITHIN alone.
pub fn near_starts(held: &Held) -> impl Iterator<Item = Start> + '_ {
    starts(held).filter(|start| start.op.code == WITHIN)
}

impl Source {
    /// Puts a second mark n - 1, n or n + 1 from one that a held WITHIN starts from, or asks what
    /// the rule concludes between them; none where no rule starts from a mark.
    pub fn apart(&mut self, held: &Held) -> Option<Record> {
        let all: Vec<Start> = near_starts(held).collect();
        if all.is_empty() {
            return None;
        }
        let Start {
            mark,
            op,
            concluded,
        } = self.dice.pick(&all);
        let distance = op.n as i32 + self.dice.pick(&[-1, 0, 1]);
        let more = match self.dice.percent(self.plan.stretches) {
            true => self.dice.pick(&[1, 5]),
            false => 0,
        };
        let (above, below) = (mark.top - distance, mark.bottom + distance);
        let ends = self
            .dice
            .pick(&[(above - more, above), (below, below + more)]);
        // The depths beside the mark are in the gap, however short that is.
        let asked = self.dice.pick(&[mark.top - 1, mark.bottom + 1]);
        Some(match self.dice.below(2) {
            0 => Record::Put(Mark {
                fact: mark.fact,
                top: ends.0,
                bottom: ends.1,
            }),
            _ => Record::Query(concluded, asked.into()),
        })
    }
}
