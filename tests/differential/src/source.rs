//! Draws names, depths, rules, marks and records by a plan.

use crate::plan::Plan;
use dice::Dice;
use model::frame::{bytes, wide_bytes};
use model::held::Held;
use model::terms::*;
use std::collections::BTreeSet;

/// Depths at the ends of the range, out of it and beside zero.
pub const EDGE_DEPTHS: [i32; 7] = [
    SHALLOWEST,
    SHALLOWEST - 1,
    DEEPEST,
    DEEPEST + 1,
    i32::MIN,
    i32::MAX,
    -1,
];

/// What the rule concludes on these items.
pub fn conclusion(rule: Rule, [item, to]: [u8; 2]) -> Fact {
    match rule {
        Rule::Label { b: label, .. } | Rule::Via { b: label, .. } | Rule::Both { c: label, .. } => {
            Fact::Label { item, label }
        }
        Rule::LinkRule { s: kind, .. } => Fact::Link {
            from: item,
            kind,
            to,
        },
    }
}

pub struct Source {
    pub dice: Dice,
    pub plan: Plan,
    /// Marks meet at few depths, so that rules find their premises together.
    pub pool: Vec<i32>,
    /// The same as they were drawn, and how far they went along with shifts.
    pub drawn: Vec<i32>,
    pub along: i64,
    /// The shift that last changed what is held, if nothing else did since.
    pub shifted: Option<i32>,
    /// The items of the mark that a record was last about.
    pub touched: [u8; 2],
    /// The ends of the chain that a pad starts with.
    pub far: [u8; 2],
}

impl Source {
    pub fn new(mut dice: Dice, plan: Plan) -> Source {
        let last = plan.top + plan.width - 1;
        let mut pool = BTreeSet::new();
        while (pool.len() as u64) < plan.depths {
            pool.insert(dice.between(plan.top, last) as i32);
        }
        let drawn: Vec<i32> = pool.into_iter().collect();
        Source {
            dice,
            plan,
            pool: drawn.clone(),
            drawn,
            along: 0,
            shifted: None,
            touched: [0, 0],
            far: [0, 15],
        }
    }

    /// One of the edge values now and then, else the usual one.
    pub fn or_edge<T: Copy>(&mut self, usual: T, edges: &[T]) -> T {
        match self.dice.percent(self.plan.edge) {
            true => self.dice.pick(edges),
            false => usual,
        }
    }

    pub fn item(&mut self) -> u8 {
        let usual = self.dice.below(self.plan.items.into()) as u8;
        self.or_edge(usual, &[0, 15, 16, 255])
    }

    pub fn kind(&mut self) -> u8 {
        let usual = self.dice.below(self.plan.kinds.into()) as u8;
        self.or_edge(usual, &[0, 7, 8, 255])
    }

    pub fn label(&mut self, first: u8) -> u8 {
        let usual = self.dice.between(first.into(), self.plan.labels.into()) as u8;
        self.or_edge(usual.min(NEVER - 1), &[0, 1, 62, 63, 64, 255])
    }

    fn left(&mut self) -> u8 {
        let first = self.dice.pick(&[EVERY, 1, 1, 1, 1, 1, 1, 1]);
        self.label(first)
    }

    pub fn concluded(&mut self) -> u8 {
        match self.dice.percent(self.plan.never) {
            true => NEVER,
            false => self.label(1),
        }
    }

    /// An end of a mark.
    pub fn depth(&mut self) -> i32 {
        let anywhere = self.dice.below(self.plan.width as u64) as i64 + self.top();
        let usual = match self.dice.percent(self.plan.fresh) {
            true => anywhere as i32,
            false => self.dice.pick(&self.pool),
        };
        self.or_edge(usual, &EDGE_DEPTHS)
    }

    /// Questions stand on marks, beside them, between them and far from them.
    pub fn asked_depth(&mut self) -> i64 {
        let marked = i64::from(self.dice.pick(&self.pool));
        let between = self.top() - 5 + self.dice.below(self.plan.width as u64 + 10) as i64;
        let usual = self.dice.pick(&[marked, marked - 1, marked + 1, between]);
        let low = i64::from(i32::MIN);
        let edges = [i64::MIN, i64::MAX, low, low - 1, 1 << 31, 1 << 32, 200_001];
        self.or_edge(usual, &edges)
    }

    pub fn operator(&mut self) -> Operator {
        let code = self.dice.pick(&[1, 1, 1, 1, 2, 3, 4, 5]);
        let code = self.or_edge(code, &[0, 1, 2, 5, 6, 255]);
        let short = self.dice.between(1, 20) as u32;
        let wide = self.dice.between(1, self.plan.width) as u32;
        let within = self.dice.pick(&[1, short, short, wide]).min(MAX_N);
        let usual = if code == WITHIN { within } else { 0 };
        let n = self.or_edge(usual, &[0, 1, MAX_N, MAX_N + 1, u32::MAX]);
        Operator { code, n }
    }

    pub fn rule(&mut self) -> Rule {
        match self.dice.below(8) {
            0..=2 => Rule::Label {
                op: self.operator(),
                a: self.left(),
                b: self.concluded(),
            },
            3 | 4 => Rule::Both {
                a: self.left(),
                b: self.left(),
                c: self.concluded(),
            },
            5 => Rule::LinkRule {
                op: self.operator(),
                r: self.kind(),
                s: self.kind(),
            },
            _ => Rule::Via {
                r: self.kind(),
                a: self.left(),
                b: self.concluded(),
            },
        }
    }

    pub fn fact(&mut self, first: u8) -> Fact {
        match self.dice.percent(self.plan.linked) {
            true => Fact::Link {
                from: self.item(),
                kind: self.kind(),
                to: self.item(),
            },
            false => Fact::Label {
                item: self.item(),
                label: self.label(first),
            },
        }
    }

    pub fn mark(&mut self) -> Mark {
        let fact = self.fact(1);
        let (top, bottom) = self.ends();
        Mark { fact, top, bottom }
    }

    fn spans(&mut self) -> Record {
        Record::Spans {
            item: self.item(),
            label: self.left(),
        }
    }

    /// A mark that is held, if any, with the given chance, or else one that goes by it.
    pub fn mark_or_held(&mut self, held: &Held, chance: u64) -> Mark {
        if held.marks.is_empty() {
            return self.mark();
        }
        let known = self.dice.pick(&held.marks);
        match self.dice.percent(chance) {
            true => known,
            false if self.dice.percent(self.plan.near) => self.beside(known),
            false => self.mark(),
        }
    }

    /// A question at an end of a mark, inside it or beside it.
    pub fn question_at(&mut self, held: &Held) -> Record {
        let mark = self.mark_or_held(held, 95);
        let [top, bottom] = mark.ends().map(i64::from);
        let inside = self.dice.between(top.min(bottom), top.max(bottom));
        let depths = [top - 1, top, inside, inside, bottom, bottom + 1];
        Record::Query(mark.fact, self.dice.pick(&depths))
    }

    /// Half of the questions are about what some rule concludes.
    pub fn asked_fact(&mut self, held: &Held) -> Fact {
        let rule = self.rule_or_held(held, 100);
        let items = [self.item(), self.item()];
        match self.dice.below(2) {
            1 => conclusion(rule, items),
            _ => self.fact(EVERY),
        }
    }

    pub fn rule_or_held(&mut self, held: &Held, chance: u64) -> Rule {
        match !held.rules.is_empty() && self.dice.percent(chance) {
            true => self.dice.pick(&held.rules),
            false => self.rule(),
        }
    }

    /// Either counting or none; now and then a RESET, behind which it can be set.
    fn switch(&mut self) -> Record {
        let usual = self.dice.pick(&[1, 2]);
        let value = self.or_edge(usual, &[0, 3, 255]);
        match self.dice.below(4) {
            0 => Record::Reset,
            _ => Record::Counting(value),
        }
    }

    pub fn record(&mut self, held: &Held) -> Record {
        let record = self.some_record(held);
        if let Record::Put(mark) | Record::Take(mark) = record {
            self.touched = mark.fact.items();
        }
        record
    }

    fn some_record(&mut self, held: &Held) -> Record {
        let behind = self.dice.percent(self.plan.behind);
        if let Some(by) = self.shifted.filter(|_| behind) {
            return self.behind_shift(held, by);
        }
        if self.dice.percent(self.plan.shifts) {
            return self.shift(held);
        }
        if self.dice.percent(self.plan.pads) {
            return self.pad(held);
        }
        if self.dice.percent(self.plan.switches) {
            return self.switch();
        }
        if self.dice.percent(self.plan.digs) {
            return self.dig(held);
        }
        if self.dice.percent(self.plan.brinks) {
            return self.brink(held).unwrap_or_else(|| self.usual(held));
        }
        if self.dice.percent(self.plan.prints) {
            return self.print(held);
        }
        if self.dice.percent(self.plan.margins) {
            return self.margin(held);
        }
        match self.dice.percent(self.plan.apart) {
            true => self.apart(held).unwrap_or_else(|| self.usual(held)),
            false => self.usual(held),
        }
    }

    fn usual(&mut self, held: &Held) -> Record {
        match self.dice.below(100) {
            0 => Record::Reset,
            1..=17 => Record::Rule(self.rule_or_held(held, 8)),
            18..=44 => Record::Put(self.mark_or_held(held, 8)),
            45..=58 => Record::Take(self.mark_or_held(held, 80)),
            59..=76 => Record::Query(self.asked_fact(held), self.asked_depth()),
            77..=84 => self.question_at(held),
            _ => self.spans(),
        }
    }

    /// The record as bytes; a mark with both ends equal by the old kinds or by the new ones.
    pub fn written(&mut self, record: &Record) -> Vec<u8> {
        match self.dice.percent(self.plan.wide) {
            true => wide_bytes(record),
            false => bytes(record),
        }
    }

    /// A mark at one depth of the pool after the other, so that all of them are taken.
    fn mark_in_turn(&mut self, turn: usize) -> Mark {
        let (top, bottom) = self.ends_in_turn(turn);
        Mark {
            top,
            bottom,
            ..self.mark()
        }
    }

    /// Either counting, a hole or none, and the profile on or off.
    fn settings(&mut self) -> Held {
        let mut held = Held::default();
        if self.dice.percent(self.plan.new) {
            held.counting = Counting::New;
        }
        if self.dice.percent(self.plan.hole) {
            held.hole = Some(self.hole());
        }
        held.profile = self.dice.percent(self.plan.profile);
        held
    }

    /// Lists to start from, about as long as planned, with any settings.
    pub fn held(&mut self) -> Held {
        let mut held = self.settings();
        let edge = std::mem::replace(&mut self.plan.edge, 0);
        let rules: Vec<_> = (0..self.plan.rules * 2).map(|_| self.rule()).collect();
        let marks: Vec<_> = (0..self.plan.marks * 2)
            .map(|i| self.mark_in_turn(i as usize))
            .collect();
        self.plan.edge = edge;
        let room = (self.plan.rules as usize, self.plan.marks as usize);
        let rules = rules.into_iter().map(Record::Rule);
        for record in rules.chain(marks.into_iter().map(Record::Put)) {
            let full = match record {
                Record::Rule(_) => held.rules.len() >= room.0,
                _ => held.marks.len() >= room.1,
            };
            if !full {
                held.offer(&record);
            }
        }
        // Rules that all are in the profile, so that it can still be switched on.
        held.profile &= !self.dice.percent(35);
        held
    }
}
