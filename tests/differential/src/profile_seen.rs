//! What a call with rules in the print profile or out of it is seen to be, for the cases of
//! `profile_cases.rs`.

use crate::cases::{marked, ruled, Seen, DONE};
use crate::hole_seen::is_every;
use model::block::PROFILE_AT;
use model::derive::Collection;
use model::held::Held;
use model::terms::*;

/// LABEL that its operator alone takes out of the profile.
pub fn far_label(rule: Rule) -> bool {
    matches!(rule, Rule::Label { op, a, .. } if op.goes_beyond() && a != EVERY)
}

/// LABEL that EVERY takes out of it, by an operator that fits.
pub fn every_by(rule: Rule, fits: impl Fn(Operator) -> bool) -> bool {
    matches!(rule, Rule::Label { op, a: EVERY, .. } if fits(op))
}

pub fn every_label(rule: Rule) -> bool {
    every_by(rule, |op| !op.goes_beyond())
}

pub fn far_link_rule(rule: Rule) -> bool {
    matches!(rule, Rule::LinkRule { op, .. } if op.goes_beyond())
}

pub fn outside(rule: Rule) -> bool {
    !rule.in_profile()
}

pub fn is_label_by(rule: Rule, code: u8) -> bool {
    matches!(rule, Rule::Label { op, a, .. } if op.code == code && a != EVERY)
}

pub fn is_link_rule_by(rule: Rule, code: u8) -> bool {
    matches!(rule, Rule::LinkRule { op, .. } if op.code == code)
}

/// BOTH with EVERY on these sides and no other.
pub fn is_both(rule: Rule, every: [bool; 2]) -> bool {
    matches!(rule, Rule::Both { a, b, .. } if [a == EVERY, b == EVERY] == every)
}

pub fn every_twice(rule: Rule) -> bool {
    is_both(rule, [true, true])
}

/// The shallowest and the deepest marked depth.
pub type Margins = [i64; 2];

/// One above the shallowest, and one below the deepest.
pub fn above([least, _]: Margins, depth: i64) -> bool {
    depth == least - 1
}

pub fn below([_, greatest]: Margins, depth: i64) -> bool {
    depth == greatest + 1
}

pub fn beyond([least, greatest]: Margins, depth: i64) -> bool {
    depth < least || depth > greatest
}

/// Where a question stands, by the margins.
pub type Place = fn(Margins, i64) -> bool;

impl Seen {
    pub fn on(&self) -> bool {
        self.shown.profile
    }

    /// A rule with that answer that fits.
    pub fn learned(&self, answer: Answer, fits: impl Fn(Rule) -> bool) -> bool {
        matches!(self.record, Some(Record::Rule(rule)) if self.answer == answer && fits(rule))
    }

    /// The same while the profile is on.
    pub fn learned_on(&self, answer: Answer, fits: impl Fn(Rule) -> bool) -> bool {
        self.on() && self.learned(answer, fits)
    }

    /// A rule outside that was held while the profile is off.
    pub fn learned_off(&self, fits: impl Fn(Rule) -> bool) -> bool {
        !self.on() && self.learned(DONE, fits)
    }

    pub fn full(&self) -> bool {
        self.shown.rules.len() == MAX_RULES
    }

    /// A record of kind 21 with that answer.
    pub fn switched(&self, answer: Answer) -> bool {
        self.record == Some(Record::Profile) && self.answer == answer
    }

    /// The profile was switched on where it was off.
    pub fn switched_on(&self) -> bool {
        !self.on() && self.switched(DONE)
    }

    /// How many held rules are outside, and how many of these fit.
    fn outside_and(&self, fits: impl Fn(Rule) -> bool) -> [usize; 2] {
        let rules = || self.shown.rules.iter().filter(|rule| outside(**rule));
        [rules().count(), rules().filter(|rule| fits(**rule)).count()]
    }

    /// Kind 21 that rules of one sort alone turn away.
    pub fn kept_off_by(&self, sort: fn(Rule) -> bool) -> bool {
        let [all, of_sort] = self.outside_and(sort);
        self.switched(Answer::Refused(20)) && all == of_sort
    }

    /// Kind 21 that one rule of several turns away, which stands at a place that fits.
    pub fn kept_off_at(&self, place: impl Fn(&[Rule]) -> Rule) -> bool {
        let rules = &self.shown.rules;
        let alone = self.outside_and(|_| true) == [1, 1] && rules.len() > 1;
        self.switched(Answer::Refused(20)) && alone && outside(place(rules))
    }

    pub fn reset(&self) -> bool {
        self.record == Some(Record::Reset) && self.answer == DONE
    }

    pub fn behind_reset(&self) -> bool {
        self.last == Some(Record::Reset)
    }

    /// A block with the profile, rules and marks that was not turned away.
    pub fn good_profile(&self) -> bool {
        self.good_block() && self.on() && ruled(&self.shown) && marked(&self.shown)
    }

    /// A refused block with a byte 5 that fits, in which nothing else is wrong.
    pub fn bad_profile(&self, byte: fn(u8) -> bool, fits: impl Fn(&Held) -> bool) -> bool {
        let off = Held {
            profile: false,
            ..self.shown.clone()
        };
        byte(self.header[PROFILE_AT]) && self.bad_block(&fits) && off.reachable()
    }

    /// A refused block with the profile on and rules outside of one sort.
    pub fn bad_rules(&self, sort: fn(Rule) -> bool) -> bool {
        let [all, of_sort] = self.outside_and(sort);
        all > 0 && all == of_sort && self.bad_profile(|byte| byte == 1, |_| true)
    }

    fn holds_somewhere(&self, fact: Fact) -> bool {
        !Collection::least(&self.shown).of(fact).is_empty()
    }

    /// A question with that answer where marks are held, at a place that fits.
    fn asked_at(&self, answer: Answer, place: Place, about: impl Fn(Fact) -> bool) -> bool {
        let fits = |fact, depth| {
            let fits = |margins| place(margins, depth) && about(fact);
            self.shown.outermost().is_some_and(fits)
        };
        self.answer == answer && self.query(fits)
    }

    /// No beyond the marked depths, by rules in the profile, to what holds somewhere between them.
    pub fn nothing_at(&self, place: Place, link: bool) -> bool {
        let about = |fact: Fact| fact.is_link() == link && !is_every(fact);
        let listed = ruled(&self.shown) && self.shown.in_profile();
        listed
            && self.asked_at(Answer::No, place, about)
            && self.query(|fact, _| self.holds_somewhere(fact))
    }

    /// Yes there, by a rule outside.
    pub fn something_at(&self, place: Place, link: bool) -> bool {
        let about = |fact: Fact| fact.is_link() == link && !is_every(fact);
        self.asked_at(Answer::Yes, place, about)
    }

    /// Yes at an outermost marked depth to what is marked nowhere, by rules in the profile.
    pub fn derived_at(&self, place: Place, link: bool) -> bool {
        let derived = |fact| !self.shown.marks.iter().any(|mark| mark.fact == fact);
        self.shown.in_profile()
            && self.something_at(place, link)
            && self.query(|fact, _| derived(fact))
    }

    /// EVERY beyond the marked depths.
    pub fn every_beyond(&self) -> bool {
        self.on() && self.asked_at(Answer::Yes, beyond, is_every)
    }

    pub fn contradiction_beyond(&self) -> bool {
        let told = matches!(self.answer, Answer::Contradiction(_));
        self.on() && told && self.asked_at(self.answer, beyond, |_| true)
    }

    /// A question with that answer about a label but EVERY or a link, with rules and no mark.
    pub fn unmarked_query(&self, answer: Answer, link: bool) -> bool {
        let about = |fact: Fact, _| fact.is_link() == link && !is_every(fact);
        let bare = ruled(&self.shown) && !marked(&self.shown);
        bare && self.answer == answer && self.query(about)
    }

    /// SPANS of a label but EVERY, with rules that are in the profile.
    fn printed_spans(&self) -> bool {
        let asked = matches!(self.record, Some(Record::Spans { label, .. }) if label != EVERY);
        asked && ruled(&self.shown) && self.shown.in_profile()
    }

    pub fn no_spans(&self) -> bool {
        self.printed_spans() && !marked(&self.shown) && self.answer == Answer::Spans(0)
    }

    /// Spans that go as far as they may, from the shallowest to the deepest marked depth.
    pub fn spans_to_margins(&self) -> bool {
        let ends = self.written.first().zip(self.written.last());
        let written = ends.map(|(&top, &bottom)| [top, bottom].map(i64::from));
        self.printed_spans() && written.is_some() && written == self.shown.outermost()
    }

    /// A question that was answered while the profile is on and a mark is held.
    pub fn answered(&self) -> bool {
        let asked = matches!(
            self.record,
            Some(Record::Query(..)) | Some(Record::Spans { .. })
        );
        let refused = matches!(self.answer, Answer::Refused(_));
        self.on() && asked && !refused && marked(&self.shown)
    }
}
