//! The sections of a well that are printed: the profile, rules in it and out of it, and questions at
//! the outermost marked depths.

use super::*;
use model::frame;
use model::held::Held;

/// When a section switches the print profile on.
#[derive(Clone, Copy, PartialEq)]
enum Print {
    Never,
    /// Before the rules, of which some are outside.
    First,
    /// Behind rules that are all in it.
    Behind,
    /// Behind rules of which some are outside, so that it is turned away.
    TooLate,
}

fn is_printed(rule: &Record) -> bool {
    matches!(rule, Record::Rule(rule) if rule.in_profile())
}

/// The rule as a printed list has it: with BETWEEN if its operator goes beyond the marks.
fn printed(rule: Record) -> Record {
    match rule {
        _ if is_printed(&rule) => rule,
        Record::Rule(Rule::Label { a, b, .. }) => label(whole(BETWEEN), a, b),
        Record::Rule(Rule::LinkRule { r, s, .. }) => link_rule(whole(BETWEEN), r, s),
        other => other,
    }
}

impl Well {
    /// The profile before the rules, behind them or not at all; then what holds at the bit, in most
    /// sections before anything is marked.
    pub(super) fn printed_rules(&mut self) {
        let usual = self.dice.pick(&[Print::First, Print::Behind]);
        let print = match self.dice.below(7) {
            0 => Print::Never,
            1 => Print::TooLate,
            _ => usual,
        };
        if print == Print::First {
            self.print();
        }
        let rules = self.rules_to_print(print);
        self.send_all(rules);
        if matches!(print, Print::Behind | Print::TooLate) {
            self.print();
        }
        let (item, label) = (self.item(), self.dice.between(0, 62) as u8);
        self.send(query(has(item, label), self.depth));
        self.send(query(link(item, FEEDS, item), self.depth));
        self.ask_spans();
    }

    /// Switches the profile on, now and then where it is on already.
    fn print(&mut self) {
        let times = self.dice.pick(&[1, 1, 2]);
        (0..times).for_each(|_| self.send(Record::Profile));
    }

    /// Rules in the profile and out of it, or in it alone where it comes behind them.
    fn rules_to_print(&mut self, print: Print) -> Vec<Record> {
        let mut rules = self.rules();
        for _ in 0..6 {
            let place = self.dice.below(rules.len() as u64 + 1) as usize;
            rules.insert(place, self.edge_rule());
        }
        match print {
            // What is turned away comes again as it can be printed.
            Print::First => {
                let twice = rules.into_iter().flat_map(|rule| [rule, printed(rule)]);
                let mut rules: Vec<Record> = twice.collect();
                rules.dedup();
                rules
            }
            Print::Behind => rules.into_iter().map(printed).filter(is_printed).collect(),
            Print::TooLate | Print::Never => rules,
        }
    }

    /// A rule with EVERY on its left, or with an operator that goes beyond the marks.
    fn edge_rule(&mut self) -> Record {
        let a = self.dice.pick(&[SAND, GAS, UNIT, PAY]);
        let c = self.dice.between(HOUSE.into(), 62) as u8;
        let near = self.dice.pick(&[within(1), within(51), whole(BETWEEN)]);
        let far = whole(self.dice.pick(&[ABOVE, BELOW, ANYWHERE]));
        self.dice.pick(&[
            both(a, EVERY, c),
            both(EVERY, a, c),
            both(EVERY, EVERY, c),
            via(TOUCHES, EVERY, c),
            via(FEEDS, EVERY, c),
            label(near, EVERY, c),
            label(far, a, c),
            link_rule(far, FEEDS, c % KINDS),
        ])
    }

    /// The profile among the marks, where it is on, off or too late, what is none, or a rule that
    /// may be outside.
    pub(super) fn print_mistake(&mut self, sort: u64) {
        let rule = self.edge_rule();
        match sort {
            24 => self.send(Record::Profile),
            25 => self.stream.extend(framed(21, &[1])),
            26 | 27 => self.send(rule),
            sort => self.shift_mistake(sort),
        }
    }

    /// What is held after all records so far.
    pub(super) fn held(&self) -> Held {
        let (mut held, mut rest) = (Held::default(), &self.stream[..]);
        while !rest.is_empty() {
            let used = match frame::split(rest) {
                Ok(frame) => {
                    held.offer(&frame::read(&frame));
                    frame.used
                }
                Err((_, used)) => used,
            };
            rest = &rest[used..];
        }
        held
    }

    /// What is there at the shallowest and at the deepest marked depth, and directly beyond.
    pub(super) fn ask_at_margins(&mut self) {
        let marks = self.held().marks;
        let first = marks.iter().min_by_key(|mark| mark.top);
        let last = marks.iter().max_by_key(|mark| mark.bottom);
        let above = first.map(|mark| (mark.fact, [mark.top - 1, mark.top]));
        let below = last.map(|mark| (mark.fact, [mark.bottom, mark.bottom + 1]));
        for (fact, depths) in above.into_iter().chain(below) {
            let [item, _] = fact.items();
            let house = self.dice.between(HOUSE.into(), 62) as u8;
            let labels = [EVERY, CASED, UNIT, WET, house].map(|label| has(item, label));
            let facts = [&[fact], &labels[..]].concat();
            let asked = |depth: i32| facts.iter().map(move |&fact| query(fact, depth.into()));
            self.send_all(depths.into_iter().flat_map(asked).collect());
            self.send(spans(item, house));
        }
    }
}
