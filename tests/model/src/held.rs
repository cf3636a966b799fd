//! The held rules and marks with the counting, the hole and the profile in force, and the refusals
//! that look at them.

use crate::depths::Depths;
use crate::terms::{Counting, Hole, Mark, Record, Rule, MAX_DEPTHS, MAX_MARKS, MAX_RULES};
use std::collections::{BTreeSet, HashSet};

#[derive(Clone, Debug, Default, PartialEq, Eq)]
pub struct Held {
    pub counting: Counting,
    pub hole: Option<Hole>,
    /// Whether the print profile is on.
    pub profile: bool,
    pub rules: Vec<Rule>,
    pub marks: Vec<Mark>,
}

impl Held {
    /// The marked depths: all tops and bottoms, each once.
    pub fn ends(&self) -> BTreeSet<i32> {
        self.marks.iter().flat_map(Mark::ends).collect()
    }

    /// The shallowest and the deepest marked depth.
    pub fn outermost(&self) -> Option<[i64; 2]> {
        let ends = self.ends();
        Some([*ends.first()?, *ends.last()?].map(i64::from))
    }

    /// The depths that there are.
    pub fn exist(&self) -> Depths {
        match self.hole {
            None => Depths::all(),
            Some(hole) => Depths::run(hole.top.into(), hole.bottom.into()),
        }
    }

    fn outside(&self, mark: &Mark) -> bool {
        self.hole.is_some_and(|hole| !hole.holds(mark))
    }

    /// Whether all rules are in the print profile, be it on or off.
    pub fn in_profile(&self) -> bool {
        self.rules.iter().all(|rule| rule.in_profile())
    }

    /// The first of refusals 15, 16, 17, 20 and 9 to 12 that applies. Only kind 17 knows 15, and it
    /// has no depth for 8 and 14, which are tested in between. Kind 20 knows 8 alone, by the depths
    /// that are held.
    pub fn refusal(&self, record: &Record) -> Option<u32> {
        match record {
            Record::Counting(_) => (!self.rules.is_empty()).then_some(15),
            Record::Hole(_) => (!self.marks.is_empty()).then_some(17),
            Record::Profile => (!self.in_profile()).then_some(20),
            Record::Shift(by) => self.shifted(*by).is_none().then_some(8),
            Record::Rule(rule) if self.profile && !rule.in_profile() => Some(20),
            Record::Rule(rule) if self.rules.contains(rule) => Some(9),
            Record::Rule(_) => (self.rules.len() >= MAX_RULES).then_some(11),
            Record::Put(mark) if self.outside(mark) => Some(16),
            Record::Put(mark) => self.put_refusal(mark),
            Record::Take(mark) => (!self.marks.contains(mark)).then_some(10),
            _ => None,
        }
    }

    fn put_refusal(&self, mark: &Mark) -> Option<u32> {
        if self.marks.contains(mark) {
            return Some(9);
        }
        if self.marks.len() >= MAX_MARKS {
            return Some(11);
        }
        let mut ends = self.ends();
        ends.extend(mark.ends());
        (ends.len() > MAX_DEPTHS).then_some(12)
    }

    /// Carries out an accepted record; questions change nothing.
    pub fn accept(&mut self, record: &Record) {
        match record {
            Record::Reset => *self = Held::default(),
            Record::Rule(rule) => self.rules.push(*rule),
            Record::Put(mark) => self.marks.push(*mark),
            Record::Take(mark) => self.marks.retain(|held| held != mark),
            Record::Counting(value) => self.counting = Counting::named(*value).expect("1 or 2"),
            Record::Hole(hole) => self.hole = Some(*hole),
            Record::Profile => self.profile = true,
            Record::Shift(by) => *self = self.shifted(*by).expect("depths in range"),
            Record::Query(..) | Record::Spans { .. } => {}
        }
    }

    /// Carries out a record that would not be refused.
    pub fn offer(&mut self, record: &Record) {
        if record.refusal().or(self.refusal(record)).is_none() {
            self.accept(record);
        }
    }

    /// No hole, or one that can be given, with all marks inside.
    fn hole_in_order(&self) -> bool {
        let given = self.hole.map(Record::Hole);
        given.is_none_or(|record| record.refusal().is_none())
            && !self.marks.iter().any(|mark| self.outside(mark))
    }

    /// Whether records can lead to these lists: ranges, limits, no double, a hole, if there is one,
    /// around all marks, and a profile, if it is on, that all rules are in. The counting comes
    /// before the rules and the hole before the marks, so either counting goes with any lists, and
    /// such a hole with any rules.
    pub fn reachable(&self) -> bool {
        let rules: HashSet<_> = self.rules.iter().collect();
        let marks: HashSet<_> = self.marks.iter().collect();
        let mut puts = self.marks.iter().map(|&mark| Record::Put(mark));
        let mut learned = self.rules.iter().map(|&rule| Record::Rule(rule));
        rules.len() == self.rules.len()
            && marks.len() == self.marks.len()
            && rules.len() <= MAX_RULES
            && marks.len() <= MAX_MARKS
            && self.ends().len() <= MAX_DEPTHS
            && self.hole_in_order()
            && (!self.profile || self.in_profile())
            && puts.all(|record| record.refusal().is_none())
            && learned.all(|record| record.refusal().is_none())
    }
}
