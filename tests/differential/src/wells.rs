//! Draws records about the wells of a pad: links that join items and part them, marks that make an
//! item bad, and questions about all of them.

use crate::source::Source;
use model::held::Held;
use model::terms::*;

/// The labels on the left of a rule that concludes NEVER.
pub fn clash_of(rule: &Rule) -> Option<[u8; 2]> {
    match *rule {
        Rule::Label { a, b: NEVER, .. } | Rule::Via { a, b: NEVER, .. } => Some([a, a]),
        Rule::Both { a, b, c: NEVER } => Some([a, b]),
        _ => None,
    }
}

impl Source {
    /// Lays a pad over what is held: the planned chain of links through items in any order, and a
    /// rule with a mark that may make its last item bad.
    pub fn lay_pad(&mut self, held: &mut Held) {
        if self.plan.pads == 0 {
            return;
        }
        let edge = std::mem::replace(&mut self.plan.edge, 0);
        let chain = self.some_items(self.plan.chain + 1);
        let pairs = chain.windows(2);
        let mut records: Vec<Record> = pairs
            .map(|pair| Record::Put(self.tie(pair[0], pair[1])))
            .collect();
        self.far = [chain[0], chain[self.plan.chain]];
        records.push(Record::Rule(self.clash_rule()));
        self.plan.edge = edge;
        records.iter().for_each(|record| held.offer(record));
        let broken = self.clash(held, self.far[1]);
        held.offer(&broken);
    }

    /// So many different items, in any order.
    fn some_items(&mut self, count: usize) -> Vec<u8> {
        let mut items: Vec<u8> = (0..ITEMS).collect();
        for place in (1..items.len()).rev() {
            let other = self.dice.below(place as u64 + 1) as usize;
            items.swap(place, other);
        }
        items.truncate(count);
        items
    }

    /// A link between the two, either way.
    fn tie(&mut self, one: u8, other: u8) -> Mark {
        let (from, to) = self.dice.pick(&[(one, other), (other, one)]);
        let kind = self.kind();
        let (top, bottom) = self.ends();
        let fact = Fact::Link { from, kind, to };
        Mark { fact, top, bottom }
    }

    fn clash_rule(&mut self) -> Rule {
        let (usual, b, r) = (self.label(1), self.label(1), self.kind());
        // Now and then all items are bad.
        let a = if self.dice.percent(5) { EVERY } else { usual };
        let op = Operator { code: WITHIN, n: 1 };
        let alone = Rule::Label { op, a, b: NEVER };
        let met = Rule::Both { a, b, c: NEVER };
        self.dice
            .pick(&[alone, alone, met, Rule::Via { r, a, b: NEVER }])
    }

    /// An item of the mark that was put or taken last, one of a held mark, an end of the chain, or
    /// any.
    pub fn well_item(&mut self, held: &Held) -> u8 {
        let marked = self.mark_or_held(held, 100).fact.items();
        let any = [self.item(), self.item()];
        let items = self.dice.pick(&[self.touched, marked, any, self.far]);
        self.dice.pick(&items)
    }

    /// A mark with which the item, or one that has half of it already, has what a held rule takes
    /// for NEVER; a rule where none does.
    fn clash(&mut self, held: &Held, item: u8) -> Record {
        let all: Vec<[u8; 2]> = held.rules.iter().filter_map(clash_of).collect();
        if all.is_empty() {
            return Record::Rule(self.clash_rule());
        }
        let [one, other] = self.dice.pick(&all);
        let (top, bottom) = self.ends();
        let fact = Fact::Label { item, label: one };
        let alone = Mark { fact, top, bottom };
        let second_half = |seen: &Mark| match seen.fact {
            Fact::Label { item, label } if label == one && one != other => Some(Mark {
                fact: Fact::Label { item, label: other },
                ..*seen
            }),
            _ => None,
        };
        let mut marks: Vec<Mark> = held.marks.iter().filter_map(second_half).collect();
        marks.push(alone);
        Record::Put(self.dice.pick(&marks))
    }

    /// Takes a link, or a label that a held rule takes for NEVER, if there is such.
    fn part(&mut self, held: &Held) -> Option<Record> {
        let clashes: Vec<[u8; 2]> = held.rules.iter().filter_map(clash_of).collect();
        let clashing = |mark: &Mark| match mark.fact {
            Fact::Label { label, .. } => clashes.iter().flatten().any(|&left| left == label),
            Fact::Link { .. } => false,
        };
        let links = self.dice.percent(70);
        let fits = |mark: &&Mark| match links {
            true => mark.fact.is_link(),
            false => clashing(mark),
        };
        let marks: Vec<Mark> = held.marks.iter().filter(fits).copied().collect();
        (!marks.is_empty()).then(|| Record::Take(self.dice.pick(&marks)))
    }

    /// Joins an item of a well to another, which may be one of the same well or the item itself.
    fn join(&mut self, held: &Held) -> Record {
        let (one, other) = (self.well_item(held), self.well_item(held));
        Record::Put(self.tie(one, other))
    }

    fn ask_well(&mut self, held: &Held) -> Record {
        let (one, other) = (self.well_item(held), self.well_item(held));
        let (kind, label, depth) = (self.kind(), self.label(EVERY), self.asked_depth());
        let label_fact = Fact::Label { item: one, label };
        let link_fact = Fact::Link {
            from: one,
            kind,
            to: other,
        };
        match self.dice.below(10) {
            0..=2 => Record::Query(label_fact, depth),
            3 | 4 => Record::Query(link_fact, depth),
            5..=7 => self.question_at(held),
            _ => Record::Spans { item: one, label },
        }
    }

    /// A link or a clash that comes or goes, or a question.
    pub fn pad(&mut self, held: &Held) -> Record {
        match self.dice.below(20) {
            0..=2 => self.join(held),
            3..=5 => self.part(held).unwrap_or_else(|| self.join(held)),
            6 | 7 => {
                let item = self.well_item(held);
                self.clash(held, item)
            }
            _ => self.ask_well(held),
        }
    }
}
