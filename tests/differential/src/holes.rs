//! Draws holes, and records about a hole's ends and what lies beside them.

use crate::distance::{starts, Start};
use crate::source::{Source, EDGE_DEPTHS};
use model::held::Held;
use model::terms::*;

impl Source {
    /// A hole around all usual marks with or without room, one that cuts some off, of one depth, or
    /// at an end of the range.
    pub fn hole(&mut self) -> Hole {
        let (first, last) = (self.pool[0], self.pool[self.pool.len() - 1]);
        let (one, other) = (self.dice.pick(&self.pool), self.dice.pick(&self.pool));
        let mut room = || self.dice.between(1, 9) as i32;
        let wide = (
            (first - room()).max(SHALLOWEST),
            (last + room()).min(DEEPEST),
        );
        let ends = [
            (first, last),
            (first, last),
            (first, wide.1),
            (wide.0, last),
            wide,
            wide,
            wide,
            (one.min(other), one.max(other)),
            (one, one),
            (SHALLOWEST, wide.1),
            (wide.0, DEEPEST),
            (SHALLOWEST, DEEPEST),
            (0, 0),
        ];
        let (top, bottom) = self.dice.pick(&ends);
        Hole { top, bottom }
    }

    /// What a record of kind 18 says: the hole in force, another, or what is none.
    fn said_hole(&mut self, held: &Held) -> Hole {
        let usual = self.hole();
        let Hole { top, bottom } = match held.hole {
            Some(hole) if self.dice.percent(30) => hole,
            _ => usual,
        };
        let (top, bottom) = match self.dice.percent(self.plan.reversed) {
            true => (bottom, top.min(bottom - 1)),
            false => (top, bottom),
        };
        Hole {
            top: self.or_edge(top, &EDGE_DEPTHS),
            bottom: self.or_edge(bottom, &EDGE_DEPTHS),
        }
    }

    /// A hole, or now and then what leaves no mark held, so that one can be given.
    pub fn dig(&mut self, held: &Held) -> Record {
        match self.dice.below(8) {
            0 => Record::Reset,
            1..=3 if !held.marks.is_empty() => Record::Take(self.dice.pick(&held.marks)),
            _ => Record::Hole(self.said_hole(held)),
        }
    }

    /// A mark, a question or spans at the hole's ends or beside them; none where there is no hole.
    pub fn brink(&mut self, held: &Held) -> Option<Record> {
        let hole = held.hole?;
        Some(match self.dice.below(20) {
            0..=4 => Record::Put(self.mark_at(hole, held)),
            5 | 6 => Record::Take(self.mark_at(hole, held)),
            7 | 8 => {
                let fact = self.asked_fact(held);
                self.question_at_ends(hole, fact)
            }
            9 | 10 => {
                let item = self.item();
                self.question_at_ends(hole, Fact::Label { item, label: EVERY })
            }
            11..=15 => {
                let fact = self.concluded_fact(held);
                self.question_at_ends(hole, fact)
            }
            16..=18 => self.spans_at_ends(hole, held),
            _ => Record::Hole(self.said_hole(held)),
        })
    }

    /// Ends at the hole's, one past them or farther, also the wrong way round or out of range; often
    /// of what is marked already, so that it may hold at both ends.
    fn mark_at(&mut self, hole: Hole, held: &Held) -> Mark {
        let Hole { top, bottom } = hole;
        let inside = self.dice.between(top.into(), bottom.into()) as i32;
        let more = self.dice.between(0, 6) as i32;
        let ends = [
            (top, top),
            (bottom, bottom),
            (top, bottom),
            (top, inside),
            (inside, bottom),
            (top - 1, top - 1),
            (bottom + 1, bottom + 1),
            (top - 1, inside),
            (inside, bottom + 1),
            (top - 1 - more, bottom + 1 + more),
            (top - 1 - more, top - 1),
            (bottom + 1, bottom + 1 + more),
            (bottom + 1 + more, inside),
            (inside, top - 1 - more),
            (bottom + 1, top - 1),
            (bottom + 2 + more, bottom + 1),
            (top - 1, top - 2 - more),
            (SHALLOWEST, DEEPEST),
            (top - 1, DEEPEST + 1),
            (SHALLOWEST - 1, inside),
        ];
        let (top, bottom) = self.dice.pick(&ends);
        let fact = self.mark_or_held(held, 40).fact;
        match self.plan.stretches {
            0 => Mark::point(fact, top),
            _ => Mark { fact, top, bottom },
        }
    }

    /// At an end, one outside or far away; cut to 32 bits, some of these lie inside.
    fn question_at_ends(&mut self, hole: Hole, fact: Fact) -> Record {
        let [top, bottom] = hole.ends().map(i64::from);
        let near = [top - 1, top, bottom, bottom + 1];
        let far = [i64::MIN, i64::MAX, top + (1 << 32), bottom - (1 << 32)];
        let depth = match self.dice.below(4) {
            0 => self.dice.pick(&far),
            _ => self.dice.pick(&near),
        };
        Record::Query(fact, depth)
    }

    /// What an operator that goes beyond its marks concludes of a held one, if there is such.
    pub fn concluded_fact(&mut self, held: &Held) -> Fact {
        let all: Vec<Start> = starts(held).filter(|s| s.op.code != WITHIN).collect();
        match all.is_empty() {
            true => self.asked_fact(held),
            false => self.dice.pick(&all).concluded,
        }
    }

    /// Spans of what is concluded, or of what is marked at both of the hole's ends.
    fn spans_at_ends(&mut self, hole: Hole, held: &Held) -> Record {
        let marks = || held.marks.iter();
        let to_bottom = |fact| marks().any(|m| m.fact == fact && m.bottom == hole.bottom);
        let from_top = marks().filter(|mark| mark.top == hole.top);
        let mut facts = from_top
            .map(|mark| mark.fact)
            .filter(|&fact| to_bottom(fact));
        let concluded = self.concluded_fact(held);
        let fact = match self.dice.percent(50) {
            true => concluded,
            false => facts.next().unwrap_or(concluded),
        };
        match fact {
            Fact::Label { item, label } => Record::Spans { item, label },
            Fact::Link { from: item, .. } => Record::Spans { item, label: EVERY },
        }
    }
}
