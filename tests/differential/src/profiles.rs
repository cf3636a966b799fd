//! Draws records about the print profile: kind 21, rules at its edges, and questions where nothing
//! is marked any more.

use crate::distance::starts;
use crate::source::{conclusion, Source};
use model::held::Held;
use model::terms::*;

impl Source {
    /// Kind 21, a rule, or a RESET, behind which the profile is off.
    pub fn print(&mut self, held: &Held) -> Record {
        match self.dice.below(10) {
            0 => Record::Reset,
            1..=3 => Record::Profile,
            4 => Record::Rule(self.rule_or_held(held, 50)),
            _ => Record::Rule(self.edge_rule()),
        }
    }

    fn every_or_label(&mut self) -> u8 {
        let usual = self.label(1);
        self.dice.pick(&[EVERY, usual])
    }

    /// A rule that its operator, or EVERY on its left, may take out of the profile.
    pub fn edge_rule(&mut self) -> Rule {
        let (a, b) = (self.every_or_label(), self.every_or_label());
        let (r, s) = (self.kind(), self.kind());
        let (op, c) = (self.operator(), self.concluded());
        match self.dice.below(8) {
            0..=2 => Rule::Label { op, a, b: c },
            3 | 4 => Rule::Both { a, b, c },
            5 | 6 => Rule::LinkRule { op, r, s },
            _ => Rule::Via { r, a, b: c },
        }
    }

    /// What a held rule concludes of a mark, or may conclude where something is marked, or what is
    /// marked itself.
    pub fn likely_fact(&mut self, held: &Held) -> Fact {
        let marked = self.mark_or_held(held, 100).fact;
        let rule = self.rule_or_held(held, 100);
        let concluded: Vec<Fact> = starts(held).map(|start| start.concluded).collect();
        match self.dice.below(4) {
            0 => marked,
            1 | 2 if !concluded.is_empty() => self.dice.pick(&concluded),
            _ => conclusion(rule, marked.items()),
        }
    }

    /// A question at the outermost marked depths, directly beyond them or far away, or spans.
    pub fn margin(&mut self, held: &Held) -> Record {
        let [least, greatest] = held.outermost().unwrap_or([0, 0]);
        let near = [least - 1, least, greatest, greatest + 1];
        let near = self.dice.pick(&near);
        let far = self
            .dice
            .pick(&[i64::MIN, least - 5_000, greatest + 5_000, i64::MAX]);
        let fact = self.likely_fact(held);
        let [item, _] = fact.items();
        match (self.dice.below(8), fact) {
            (0 | 1, Fact::Label { item, label }) => Record::Spans { item, label },
            (2, _) => Record::Query(Fact::Label { item, label: EVERY }, near),
            (3, _) => Record::Query(fact, far),
            _ => Record::Query(fact, near),
        }
    }
}
