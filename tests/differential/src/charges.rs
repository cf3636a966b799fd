//! Draws bills for the charge by the metre: an item, lines of a label and two prices, and what can
//! be wrong with each of them.

use crate::distance::starts;
use crate::source::Source;
use model::charge::{numbers, Line, LINE_NUMBERS, MAX_LINES, MAX_PRICE};
use model::held::Held;
use model::short::{has, hole, label, put, whole};
use model::terms::*;
use panel::Bill;

/// How many lines a bill has where nothing is wrong with that.
const COUNTS: [usize; 9] = [0, 1, 1, 2, 3, 3, 3, 15, 16];
const TOO_MANY: [usize; 3] = [MAX_LINES + 1, MAX_LINES + 1, MAX_LINES + 4];
/// Lines behind those that are lent, so that it shows if one of them is read.
const BEHIND: usize = 2;

const PRICES: [u32; 8] = [0, 1, 40, 250, 1_000, MAX_PRICE - 1, MAX_PRICE, MAX_PRICE];
const DEAR: [u32; 6] = [
    MAX_PRICE + 1,
    MAX_PRICE + 1,
    MAX_PRICE + 2,
    1 << 24,
    1 << 31,
    u32::MAX,
];

/// Lengths of stretches, in centimetres, at which another metre starts or is about to.
const LENGTHS: [i32; 14] = [
    1, 2, 50, 99, 100, 100, 101, 101, 199, 200, 201, 1_000, 1_001, 30_000,
];

/// The label of the section that costs most.
const DEAREST: u8 = 1;

/// Numbers that are the good one in their lowest byte or half, or that are no name at all.
fn beside(good: u32, first_bad: u32) -> [u32; 8] {
    [
        first_bad,
        first_bad,
        first_bad + 1,
        255,
        256,
        256 + good,
        65_536 + good,
        u32::MAX,
    ]
}

impl Source {
    /// The bottom of a stretch from that top on, about as long as some whole metres, or at zero.
    pub fn metres_below(&mut self, top: i32) -> i32 {
        let bottom = top.saturating_add(self.dice.pick(&LENGTHS) - 1);
        match top < 0 && self.dice.percent(10) {
            true => 0,
            false => bottom,
        }
    }

    /// The label that a line lists: one that is marked on the item, or concluded of a mark, or any.
    /// Calm ones have, most often, no span without an end.
    fn listed_label(&mut self, held: &Held, item: u8, calm: bool) -> u8 {
        let known = |fact: Fact| match fact {
            Fact::Label { item: on, label } if on == item => Some(label),
            _ => None,
        };
        let marked = held.marks.iter().filter_map(|mark| known(mark.fact));
        let concluded = starts(held).filter(|start| !(calm && start.op.goes_beyond()));
        let concluded: Vec<u8> = concluded
            .filter_map(|start| known(start.concluded))
            .collect();
        let marked: Vec<u8> = marked.collect();
        match self.dice.below(12) {
            0 => NEVER,
            1 => self.dice.between(1, 62) as u8,
            // In a hole it has both ends.
            2 if !calm || held.hole.is_some() => EVERY,
            3..=6 if !concluded.is_empty() => self.dice.pick(&concluded),
            _ if !marked.is_empty() => self.dice.pick(&marked),
            _ => self.label(1).min(NEVER),
        }
    }

    /// An item and a label of it that has, most often, a span without an end on one side.
    fn half_open_label(&mut self, held: &Held) -> Option<(u8, u8)> {
        match self.half_open(held)? {
            Fact::Label { item, label } => Some((item, label)),
            Fact::Link { .. } => None,
        }
    }

    /// A price for a metre, and a least price that is often near that of a few metres.
    fn prices(&mut self) -> [u32; 2] {
        let any = self.dice.below(u64::from(MAX_PRICE) + 1) as u32;
        let known = self.dice.pick(&PRICES);
        let price = self.dice.pick(&[known, known, any]);
        let metres = price * self.dice.pick(&[1, 1, 2, 3]);
        let near = [metres.saturating_sub(1), metres, metres, metres + 1];
        let (near, known) = (self.dice.pick(&near), self.dice.pick(&PRICES));
        let least = self.dice.pick(&[near, near, known, 0]);
        [price, least.min(MAX_PRICE)]
    }

    /// So many lines by a few labels, so that some come twice; now and then at the same prices.
    fn lines(&mut self, held: &Held, item: u8, count: usize) -> Vec<Line> {
        let calm = self.dice.percent(70);
        let few = self.dice.pick(&[1, 2, 3, 6]);
        let labels: Vec<u8> = (0..few)
            .map(|_| self.listed_label(held, item, calm))
            .collect();
        let all_alike = self.dice.percent(20).then(|| self.prices());
        let mut line = || {
            let [price, least] = all_alike.unwrap_or_else(|| self.prices());
            Line {
                label: self.dice.pick(&labels).into(),
                price,
                least,
            }
        };
        (0..count).map(|_| line()).collect()
    }

    /// The first line or the last lists that label, now and then for nothing, and each other one
    /// what is likely to cost nothing.
    fn stand_out(&mut self, lines: &mut [Line], label: u8) {
        let quiet = self.dice.pick(&[NEVER, 62, lines[0].label as u8]);
        lines.iter_mut().for_each(|line| line.label = quiet.into());
        let last = lines.len() - 1;
        let line = &mut lines[self.dice.pick(&[0, last, last])];
        line.label = label.into();
        if self.dice.percent(30) {
            (line.price, line.least) = (0, 0);
        }
    }

    /// A bill in order: an item of some mark, or any, and up to sixteen lines.
    fn proper_bill(&mut self, held: &Held) -> Bill {
        let marked = self.mark_or_held(held, 100).fact.items()[0];
        let well = self.well_item(held);
        let item = self.dice.pick(&[marked, marked, well]).min(ITEMS - 1);
        let half_open = self.half_open_label(held).filter(|_| self.dice.percent(25));
        let (item, label) =
            half_open.unwrap_or_else(|| (item, self.listed_label(held, item, false)));
        let count = self.dice.pick(&COUNTS);
        let mut lines = self.lines(held, item, MAX_LINES + 4 + BEHIND);
        if count > 0 && (half_open.is_some() || self.dice.percent(15)) {
            self.stand_out(&mut lines[..count], label);
        }
        let any = self.dice.word();
        Bill {
            numbers: numbers(&lines),
            lent: count * LINE_NUMBERS,
            item: item.into(),
            total: self.dice.pick(&[0, u64::MAX, any]),
        }
    }

    /// Where one of the lent lines starts: the first, the last or any; the first one behind where
    /// none is lent.
    fn some_line(&mut self, bill: &Bill) -> usize {
        let last = (bill.lent / LINE_NUMBERS).max(1) - 1;
        let any = self.dice.below(last as u64 + 1) as usize;
        LINE_NUMBERS * self.dice.pick(&[0, last, last, any])
    }

    /// Makes one thing wrong.
    fn spoil_bill(&mut self, bill: &mut Bill) {
        let at = self.some_line(bill);
        match self.dice.below(18) {
            0..=2 => bill.item = self.dice.pick(&beside(bill.item, ITEMS.into())),
            3..=5 => bill.numbers[at] = self.dice.pick(&beside(bill.numbers[at], LABELS.into())),
            6 | 7 => bill.numbers[at + 1] = self.dice.pick(&DEAR),
            8 | 9 => bill.numbers[at + 2] = self.dice.pick(&DEAR),
            10..=12 => bill.lent = LINE_NUMBERS * self.dice.pick(&TOO_MANY),
            13 => self.spoil_behind(bill),
            _ => bill.lent = self.inside_a_line(bill.lent),
        }
    }

    /// A bad label in a line that is one too many, and in no other.
    fn spoil_behind(&mut self, bill: &mut Bill) {
        bill.lent = LINE_NUMBERS * self.dice.pick(&TOO_MANY);
        let last = bill.lent - LINE_NUMBERS;
        let at = self.dice.pick(&[LINE_NUMBERS * MAX_LINES, last]);
        bill.numbers[at] = self.dice.pick(&beside(1, LABELS.into()));
    }

    /// A length that ends inside a line, one or two numbers more or less.
    fn inside_a_line(&mut self, lent: usize) -> usize {
        let more = self.dice.pick(&[1, 2]);
        match self.dice.percent(50) {
            true => lent.max(LINE_NUMBERS) - more,
            false => lent + more,
        }
    }

    /// Lays the section of which a label costs most in place of what is held, where it is planned.
    /// A point is a metre for one of the marked depths, and the hole's ends take none of them.
    pub fn lay_most(&self, held: &mut Held) {
        if self.plan.most == 0 {
            return;
        }
        let points = (1..95).map(|place| put(has(0, DEAREST), 2 * place));
        let start = [
            hole(SHALLOWEST, DEEPEST),
            label(whole(ABOVE), 2, DEAREST),
            label(whole(BELOW), 3, DEAREST),
            put(has(0, 2), 0),
            put(has(0, 3), 190),
        ];
        *held = Held::default();
        let records = start.into_iter().chain(points);
        records.for_each(|record| held.offer(&record));
    }

    /// The highest prices for it, so often that 31 bits don't hold the total, or 32, or as often as
    /// can be.
    fn most_bill(&mut self) -> Bill {
        let line = Line {
            label: DEAREST.into(),
            price: MAX_PRICE,
            least: 0,
        };
        Bill {
            numbers: numbers(&[line; MAX_LINES + BEHIND]),
            lent: LINE_NUMBERS * self.dice.pick(&[1, 2, MAX_LINES]),
            item: 0,
            total: self.dice.word(),
        }
    }

    /// A bill that is in order, or wrong in one thing or two.
    pub fn bill(&mut self, held: &Held) -> Bill {
        if self.dice.percent(self.plan.most) {
            return self.most_bill();
        }
        let mut bill = self.proper_bill(held);
        let wrong = self.dice.pick(&[0, 0, 0, 0, 0, 1, 1, 2]);
        (0..wrong).for_each(|_| self.spoil_bill(&mut bill));
        bill
    }
}
