//! A well as a stream of records: rules, then a drilled section with questions in between. Where a
//! caliper runs, marks are points and stretches, by the old kinds and the new ones. Where rule lists
//! name a counting, it is set before them; among the marks it is too late. Where the hole has two
//! ends, they are given before the marks, which may go on past its bottom. On a pad the items are
//! shared out to several wells, and links between two of them are a mistake that is taken back.
//! Where sections are printed, the profile is switched on before the rules or behind them, and
//! questions are asked at the outermost marked depths. Where the cable zero moves, all that is held
//! is shifted now and then, and the same is asked before and behind.

mod printed;
mod shifted;

use dice::Dice;
use model::frame::{bytes, framed, wide_bytes};
use model::short::*;
use model::terms::*;

const SAND: u8 = 1;
const SHALE: u8 = 2;
const LIME: u8 = 3;
const GAS: u8 = 4;
const OIL: u8 = 5;
const WATER: u8 = 6;
const SHOE: u8 = 7;
const CASED: u8 = 8;
const UNIT: u8 = 9;
const RESERVOIR: u8 = 10;
const PAY: u8 = 11;
const SEALED: u8 = 12;
const FED: u8 = 13;
const WET: u8 = 14;
/// Labels from here on serve the rules that a house adds for itself.
const HOUSE: u8 = 15;

const TOUCHES: u8 = 0;
const FEEDS: u8 = 1;
const SEALS: u8 = 2;

/// What is filled between it and its like, and the n of its rule.
const FILLED: [(u8, u32); 5] = [
    (SAND, 301),
    (SHALE, 501),
    (LIME, 401),
    (GAS, 151),
    (OIL, 151),
];

pub struct Size {
    pub rules: u64,
    pub marks: u64,
    pub items: u64,
    pub step: i64,
    /// How often, in percent, the bit goes deeper before the next mark.
    pub deeper: u64,
    /// Gas in a wet place is contradictory, or just wet.
    pub strict: bool,
    pub sections: u64,
    pub broken_end: bool,
    /// How often, in percent, a mark is a stretch; nothing of it is drawn where this is 0.
    pub stretches: u64,
    /// Whether rule lists name a counting; nothing of it is drawn where they don't.
    pub countings: bool,
    /// Whether the hole has two ends; nothing of it is drawn where it hasn't.
    pub holes: bool,
    /// How many wells a pad has; nothing of it is drawn where this is 0.
    pub wells: u8,
    /// Whether sections are printed; nothing of it is drawn where they aren't.
    pub profiles: bool,
    /// Whether the cable zero moves; nothing of it is drawn where it doesn't.
    pub shifts: bool,
}

pub struct Well {
    dice: Dice,
    size: Size,
    depth: i64,
    /// The hole that was given last, whether it was taken or not.
    hole: (i32, i32),
    marks: Vec<Mark>,
    stream: Vec<u8>,
}

fn common_rules() -> Vec<Record> {
    let mut rules = FILLED
        .map(|(seen, n)| label(within(n), seen, seen))
        .to_vec();
    rules.extend([
        label(whole(ABOVE), SHOE, CASED),
        label(whole(BELOW), WATER, WET),
        label(whole(BETWEEN), UNIT, UNIT),
        both(SAND, OIL, RESERVOIR),
        both(SAND, GAS, RESERVOIR),
        both(RESERVOIR, UNIT, PAY),
        link_rule(within(1_001), TOUCHES, TOUCHES),
        link_rule(whole(BETWEEN), FEEDS, FEEDS),
        link_rule(whole(ANYWHERE), SEALS, SEALS),
        via(FEEDS, RESERVOIR, FED),
        via(SEALS, SHALE, SEALED),
        both(FED, SEALED, PAY),
    ]);
    rules
}

impl Well {
    pub fn new(seed: u64, size: Size) -> Well {
        let mut dice = Dice::new(seed);
        let depth = dice.between(-800, 5_000);
        Well {
            dice,
            size,
            depth,
            hole: (SHALLOWEST, DEEPEST),
            marks: Vec::new(),
            stream: Vec::new(),
        }
    }

    pub fn stream(mut self) -> Vec<u8> {
        (0..self.size.sections).for_each(|section| self.section(section));
        if self.size.broken_end {
            self.stream.extend([12, 0, 10, 0, 0, PAY, 7]);
        }
        self.stream
    }

    fn caliper(&self) -> bool {
        self.size.stretches > 0
    }

    fn send(&mut self, record: Record) {
        self.stream.extend(bytes(&record));
    }

    fn send_all(&mut self, records: Vec<Record>) {
        records.into_iter().for_each(|record| self.send(record));
    }

    /// Puts or takes a mark; with a caliper also a point by the new kinds now and then.
    fn send_mark(&mut self, record: Record) {
        match self.caliper() && self.dice.percent(30) {
            true => self.stream.extend(wide_bytes(&record)),
            false => self.send(record),
        }
    }

    /// One drilled section; the next one starts with a reset.
    fn section(&mut self, number: u64) {
        if number > 0 {
            self.send(Record::Reset);
            self.marks.clear();
        }
        self.settings();
        if self.size.shifts {
            self.shift_early();
        }
        match self.size.profiles {
            true => self.printed_rules(),
            false => {
                let rules = self.rules();
                self.send_all(rules);
            }
        }
        if self.size.countings {
            (0..3).for_each(|_| self.see_again());
        }
        let early = self.size.wells > 0 && self.dice.percent(50);
        if early {
            self.flood();
        }
        match self.size.shifts {
            true => self.drill_and_correct(),
            false => (0..self.size.marks).for_each(|_| self.drill()),
        }
        if self.size.wells > 0 && !early {
            self.flood();
        }
        self.report();
        if self.size.shifts {
            self.go_to_the_ends();
        }
    }

    /// The hole and the counting, where they are given.
    fn settings(&mut self) {
        // Behind the counting there may be marks already, and then it is too late for a hole.
        let late = self.size.holes && self.dice.percent(20);
        if self.size.holes && !late {
            self.give_holes();
        }
        if self.size.countings {
            self.set_counting();
        }
        if late {
            self.give_holes();
        }
    }

    /// Water and gas at the bit in the same place of a well.
    fn flood(&mut self) {
        let item = self.item();
        let seen = [WATER, GAS].map(|label| Mark::point(has(item, label), self.depth as i32));
        seen.into_iter().for_each(|mark| self.see(mark));
        self.ask_pad();
    }

    /// One counting after the other, the last of which counts, or none; now and then behind marks.
    fn set_counting(&mut self) {
        if self.dice.percent(30) {
            (0..4).for_each(|_| self.drill());
        }
        let named: [&[u8]; 7] = [&[], &[1], &[2], &[2], &[1, 2], &[2, 2, 1], &[2, 3]];
        let named = self.dice.pick(&named);
        named.iter().for_each(|&value| self.send(counting(value)));
    }

    /// One hole after the other, the last of which counts, or none. It begins at the bit or above
    /// and ends behind the section's last mark or before.
    fn give_holes(&mut self) {
        let (bit, step) = (self.depth as i32, self.size.step as i32);
        let above = bit - self.dice.pick(&[0, 1, 100, 900]);
        let far = bit + 2_000 + (self.size.marks * self.size.deeper) as i32 * step / 200;
        let near = bit + 1_200 + self.dice.between(0, self.size.step) as i32;
        let (above, far) = (above.max(SHALLOWEST), far.min(DEEPEST));
        let last = (above, self.dice.pick(&[near, far, far]).min(DEEPEST));
        let given: [&[(i32, i32)]; 7] = [
            &[],
            &[last],
            &[last],
            &[last, last],
            &[(bit, bit), last],
            &[(last.1 + 1, last.0), (SHALLOWEST, DEEPEST), last],
            &[(last.0, DEEPEST + 1), (SHALLOWEST, DEEPEST)],
        ];
        let given = self.dice.pick(&given);
        given.iter().for_each(|&ends| self.give(ends));
        self.send(spans(0, EVERY));
    }

    fn give(&mut self, (top, bottom): (i32, i32)) {
        self.send(hole(top, bottom));
        self.hole = (top, bottom);
    }

    /// The same seen again as far down as its rule reaches, or one more or less, and asked about
    /// between the two: the counting decides.
    fn see_again(&mut self) {
        let (seen, n) = self.dice.pick(&FILLED);
        let (fact, first) = (has(self.item(), seen), self.depth);
        self.depth += i64::from(n) + self.dice.pick(&[-1, 0, 1]);
        let both = [first, self.depth].map(|depth| Mark::point(fact, depth as i32));
        both.into_iter().for_each(|mark| self.see(mark));
        self.send(query(fact, first + 1));
    }

    fn rules(&mut self) -> Vec<Record> {
        let mut rules = common_rules();
        let gas_and_water = if self.size.strict { NEVER } else { WET };
        rules.push(both(GAS, WET, gas_and_water));
        rules.truncate(self.size.rules as usize);
        let more = self.size.rules - rules.len() as u64;
        rules.extend((0..more).map(|_| self.house_rule()));
        rules
    }

    /// Builds on the labels before, so that the rules form chains.
    fn house_rule(&mut self) -> Record {
        let concluded = self.dice.between(HOUSE.into(), 62) as u8;
        let mut left = || self.dice.between(1, i64::from(concluded) - 1) as u8;
        let (a, b) = (left(), left());
        let kind = self.dice.below(8) as u8;
        let distance = within(self.dice.pick(&[1, 51, 201, 1_001, 20_000]));
        let operator = self.dice.pick(&[distance, distance, whole(BETWEEN)]);
        match self.dice.below(6) {
            0..=1 => label(operator, a, concluded),
            2..=3 => both(a, b, concluded),
            4 => via(kind, a, concluded),
            _ => link_rule(operator, self.dice.below(3) as u8, kind),
        }
    }

    fn item(&mut self) -> u8 {
        self.dice.below(self.size.items) as u8
    }

    fn observed(&mut self) -> Fact {
        let rock = [SAND, SAND, SHALE, LIME, GAS, OIL, OIL, UNIT];
        match self.dice.below(20) {
            0 => has(self.item(), WATER),
            1 => has(self.item(), SHOE),
            2..=6 => {
                let (from, kind, to) = (self.item(), self.dice.below(3) as u8, self.item());
                link(from, kind, self.other_end(from, to))
            }
            _ => has(self.item(), self.dice.pick(&rock)),
        }
    }

    /// Where a link from the item leads that was drawn to another: there, or on a pad to an item of
    /// the same well, but for a mistake now and then.
    fn other_end(&mut self, from: u8, to: u8) -> u8 {
        match self.size.wells {
            0 => to,
            _ if self.dice.percent(8) => to,
            wells => to - to % wells + from % wells,
        }
    }

    /// The top of a stretch that ends at the bit: it starts with another mark, inside it, directly
    /// behind it or somewhere above.
    fn stretch_top(&mut self) -> i32 {
        let bit = self.depth as i32;
        let lately = self.marks.len().saturating_sub(12);
        let Some(near) = self.marks.get(lately..).filter(|near| !near.is_empty()) else {
            return bit - 25;
        };
        let near = self.dice.pick(near);
        let above = bit - self.dice.between(0, self.size.step) as i32;
        let tops = [near.top, near.top, near.bottom, near.bottom + 1, above];
        self.dice.pick(&tops).min(bit)
    }

    /// What is seen at the bit, or over the stretch that ends there.
    fn mark(&mut self) -> Mark {
        let (fact, bit) = (self.observed(), self.depth as i32);
        match self.caliper() && self.dice.percent(self.size.stretches) {
            true => from_to(fact, self.stretch_top(), bit),
            false => Mark::point(fact, bit),
        }
    }

    /// A mark at the bit, now and then one step deeper, and what else happens on the way.
    fn drill(&mut self) {
        if self.dice.percent(self.size.deeper) {
            self.depth += self.dice.between(1, self.size.step);
        }
        let mark = self.mark();
        self.see(mark);
        match self.dice.below(24) {
            0 => self.take_back(),
            1 => self.mistake(),
            2..=5 => self.question(),
            6 => self.ask_spans(),
            _ => {}
        }
    }

    fn see(&mut self, mark: Mark) {
        self.send_mark(Record::Put(mark));
        self.marks.push(mark);
    }

    fn take_back(&mut self) {
        let mark = self.dice.pick(&self.marks);
        self.send_mark(Record::Take(mark));
    }

    /// Something that is turned away, most often for what it says.
    fn mistake(&mut self) {
        let mark = self.dice.pick(&self.marks);
        let sorts = match self.size {
            Size { shifts: true, .. } => 32,
            Size { profiles: true, .. } => 28,
            Size { holes: true, .. } => 24,
            Size {
                countings: true, ..
            } => 18,
            Size { stretches: 0, .. } => 7,
            _ => 14,
        };
        match self.dice.below(sorts) {
            0 => self.send(Record::Put(mark)),
            1 => self.send(put(has(16, SAND), mark.top)),
            2 => self.send(put(mark.fact, DEEPEST + mark.top.abs() + 1)),
            3 => self.send(take(has(0, PAY), mark.top)),
            4 => self.send(label(within(0), SAND, SHALE)),
            5 => self.stream.extend(framed(13, &[0, PAY])),
            6 => self.stream.extend(framed(12, &[0, PAY, 0])),
            sort => self.caliper_mistake(sort, mark),
        }
    }

    fn caliper_mistake(&mut self, sort: u64, mark: Mark) {
        let Mark { fact, top, bottom } = mark;
        match sort {
            7 => self.stream.extend(wide_bytes(&Record::Put(mark))),
            8 => self.send(put_from_to(fact, bottom + 1, top)),
            9 => self.send(take_from_to(fact, bottom + 1, top)),
            10 => self.send(put_from_to(fact, top, DEEPEST + 1)),
            11 => self.send(put_from_to(fact, DEEPEST + 1, bottom)),
            12 => self.send(take(fact, top)),
            13 => self.stream.extend(framed(23, &[1])),
            sort => self.counting_mistake(sort),
        }
    }

    /// A counting among the marks, which is turned away once rules are held, or what is none.
    fn counting_mistake(&mut self, sort: u64) {
        let (known, unknown) = (self.dice.pick(&[1, 2]), self.dice.pick(&[0, 3, 255]));
        match sort {
            14 | 15 => self.send(counting(known)),
            16 => self.send(counting(unknown)),
            17 => {
                let body = vec![known; self.dice.pick(&[0, 2])];
                self.stream.extend(framed(17, &body));
            }
            sort => self.hole_mistake(sort),
        }
    }

    /// A hole among the marks, what is none, or a mark that reaches out of it.
    fn hole_mistake(&mut self, sort: u64) {
        let (top, bottom) = self.hole;
        let fact = self.observed();
        match sort {
            18 => self.send(hole(top, bottom)),
            19 => self.send(hole(bottom + 1, bottom)),
            20 => self.send(hole(top, DEEPEST + 1)),
            21 => self.send(put_from_to(fact, top - 1, top)),
            22 => self.send(put_from_to(fact, bottom, bottom.saturating_add(1))),
            23 => self.send(take(fact, bottom.saturating_add(1))),
            sort => self.print_mistake(sort),
        }
    }

    /// A depth of the mark; a point's only one without a draw.
    fn depth_of(&mut self, mark: Mark) -> i64 {
        let (top, bottom) = (i64::from(mark.top), i64::from(mark.bottom));
        match mark.is_point() {
            true => top,
            false => self.dice.between(top, bottom),
        }
    }

    /// Most questions are about what was seen nearby, or what may follow from it.
    fn question(&mut self) {
        let near = self.dice.pick(&self.marks);
        let depth = self.depth_of(near) + self.dice.pick(&[0, 0, -1, 1, -40, 300]);
        let derived = self.dice.between(0, HOUSE.into()) as u8;
        match (near.fact, self.dice.below(8)) {
            (_, 0) => self.send(query(near.fact, i64::MAX)),
            (_, 1..=3) => self.send(query(near.fact, depth)),
            (Fact::Label { item, .. } | Fact::Link { from: item, .. }, _) => {
                self.send(query(has(item, derived), depth));
            }
        }
    }

    fn ask_spans(&mut self) {
        let label = self.dice.between(0, i64::from(HOUSE) + 5) as u8;
        let item = self.item();
        self.send(spans(item, label));
    }

    /// What the panel shows at the end of a section; a strict house then looks again without
    /// the water, in case that was the contradiction.
    fn report(&mut self) {
        self.show();
        if self.size.wells > 0 {
            self.ask_pad();
            self.part_wells();
            self.ask_pad();
        }
        if self.size.strict {
            let marks = std::mem::take(&mut self.marks);
            let wet = |mark: &&Mark| matches!(mark.fact, Fact::Label { label: WATER, .. });
            let water = marks.iter().filter(wet);
            water.for_each(|&mark| self.send_mark(Record::Take(mark)));
            self.marks = marks;
            self.show();
        }
    }

    fn show(&mut self) {
        let labels = [CASED, WET, RESERVOIR, PAY, FED, SEALED, HOUSE + 8];
        let items = self.size.items.min(4) as u8;
        let asked = (0..items).flat_map(|item| labels.map(|label| spans(item, label)));
        asked.for_each(|record| self.send(record));
        (0..8).for_each(|_| self.question());
        if self.size.holes {
            self.ask_at_ends();
        }
        if self.size.profiles {
            self.ask_at_margins();
        }
    }

    /// What is there in each well of a pad, and between it and the next.
    fn ask_pad(&mut self) {
        let wells = self.size.wells;
        for well in 0..wells {
            let mut item = || self.dice.below(u64::from(ITEMS / wells)) as u8 * wells;
            let (one, other, next) = (item() + well, item() + well, item() + (well + 1) % wells);
            let depth = self.depth - self.dice.between(0, self.size.step);
            self.send(query(has(one, EVERY), depth));
            self.send(spans(other, WET));
            self.send(query(link(other, FEEDS, one), depth));
            self.send(query(link(one, FEEDS, next), depth));
        }
    }

    /// Takes the links between two wells.
    fn part_wells(&mut self) {
        let wells = self.size.wells;
        let between = |mark: &&Mark| {
            let [one, other] = mark.fact.items();
            one % wells != other % wells
        };
        let mistakes: Vec<Mark> = self.marks.iter().filter(between).copied().collect();
        let takes = mistakes.into_iter().map(Record::Take);
        takes.for_each(|record| self.send_mark(record));
    }

    /// What is there at the hole's ends and directly outside.
    fn ask_at_ends(&mut self) {
        let (top, bottom) = (i64::from(self.hole.0), i64::from(self.hole.1));
        let item = self.item();
        for depth in [top - 1, top, bottom, bottom + 1] {
            let label = self.dice.pick(&[CASED, WET, SEALED]);
            self.send(query(has(item, EVERY), depth));
            self.send(query(has(item, label), depth));
        }
        self.send(spans(item, EVERY));
    }
}
