//! What a charge is seen to be, for the cases of `charge_cases.rs`.

use model::block::{decode, read};
use model::charge::{charged, lengths, lines, Charge, Line, LINE_NUMBERS, MAX_LINES, MAX_PRICE};
use model::depths::{NO_BOTTOM, NO_TOP};
use model::derive::Collection;
use model::held::Held;
use model::service::Lent;
use model::terms::*;
use panel::{Bill, Empty};

/// A charge: what the block held, what was lent and asked, and the answer.
pub struct Billed {
    /// What the block's places show, whether records lead to it or not.
    pub shown: Held,
    /// Whether records lead to the block.
    pub good: bool,
    /// What holds, where a charge was given or refused with 13.
    pub found: Option<Collection>,
    pub bill: Bill,
    /// The lines that were lent whole.
    pub lines: Vec<Line>,
    pub lent: Lent,
    pub empty: Empty,
    pub answer: Charge,
    /// The record that last changed what is held.
    pub last: Option<Record>,
}

/// How many metres of a span have started.
fn started(length: u128) -> u128 {
    length.div_ceil(100)
}

/// What the line's price for its metres is, beside the least price.
pub fn by_metres(line: Line, length: u128) -> u128 {
    u128::from(line.price) * started(length)
}

impl Billed {
    pub fn new(block: &[u8], bill: &Bill, lent: Lent, empty: Empty, answer: Charge) -> Billed {
        let shown = read(block).unwrap_or_default();
        let early = matches!(answer, Charge::Refused(number) if number != 13);
        let whole = bill.lent - bill.lent % LINE_NUMBERS;
        Billed {
            found: (!early).then(|| Collection::least(&shown)),
            shown,
            good: decode(block).is_some(),
            bill: bill.clone(),
            lines: lines(&bill.numbers[..whole]).unwrap_or_default(),
            lent,
            empty,
            answer,
            last: None,
        }
    }

    pub fn behind(self, last: Option<Record>) -> Billed {
        Billed { last, ..self }
    }

    fn item(&self) -> u8 {
        self.bill.item as u8
    }

    pub fn total(&self, fits: impl Fn(u64) -> bool) -> bool {
        matches!(self.answer, Charge::Total(total) if fits(total))
    }

    pub fn is_total(&self) -> bool {
        self.total(|_| true)
    }

    pub fn is_open(&self) -> bool {
        self.answer == Charge::Open
    }

    pub fn refused(&self, number: u32) -> bool {
        self.answer == Charge::Refused(number)
    }

    /// A contradiction that fits the item asked about and the one that is named.
    pub fn clash(&self, fits: impl Fn(u8, u8) -> bool) -> bool {
        matches!(self.answer, Charge::Contradiction(named) if fits(self.item(), named as u8))
    }

    /// So many lines were lent, the last one whole.
    pub fn count(&self) -> usize {
        self.bill.lent / LINE_NUMBERS
    }

    /// The runs of a listed label of that item.
    fn runs_of(&self, item: u8, line: &Line) -> &[(i64, i64)] {
        let found = self.found.as_ref();
        found.map_or(&[], |found| found.label(item, line.label as u8).runs())
    }

    pub fn runs(&self, line: &Line) -> &[(i64, i64)] {
        self.runs_of(self.item(), line)
    }

    /// The lengths of the spans of a listed label that have both ends.
    pub fn lengths(&self, line: &Line) -> Vec<u128> {
        let set = self.found.as_ref();
        let set = set.map(|found| found.label(self.item(), line.label as u8));
        set.into_iter().flat_map(lengths).flatten().collect()
    }

    /// A total with a line that fits.
    pub fn line(&self, fits: impl Fn(&Line) -> bool) -> bool {
        self.is_total() && self.lines.iter().any(fits)
    }

    /// A total with a line of spans that fits.
    pub fn of_spans(&self, fits: impl Fn(&Line) -> bool) -> bool {
        self.line(|line| !self.runs(line).is_empty() && fits(line))
    }

    /// A total with a span that fits its line and its length.
    pub fn span(&self, fits: impl Fn(Line, u128) -> bool) -> bool {
        self.line(|line| {
            let mut lengths = self.lengths(line).into_iter();
            lengths.any(|length| fits(*line, length))
        })
    }

    /// A span of so many centimetres at its price by metres.
    pub fn of_length(&self, centimetres: u128) -> bool {
        self.span(|line, length| {
            length == centimetres && by_metres(line, length) > line.least.into()
        })
    }

    /// A total with a span whose top and bottom fit.
    pub fn lies(&self, fits: impl Fn(i64, i64) -> bool) -> bool {
        self.line(|line| {
            self.runs(line)
                .iter()
                .any(|&(top, bottom)| fits(top, bottom))
        })
    }

    /// Listed labels twice or more, of which two lines fit.
    pub fn twice(&self, fits: impl Fn(&Line, &Line) -> bool) -> bool {
        let lines = self.lines.iter().enumerate();
        let again = |(place, line): (usize, &Line)| {
            let mut later = self.lines[place + 1..].iter();
            later.any(|other| other.label == line.label && fits(line, other))
        };
        self.is_total() && lines.into_iter().any(again)
    }

    /// Whether a span of the listed label has no end.
    pub fn endless(&self, line: &Line) -> bool {
        let endless = |&(top, bottom): &(i64, i64)| top == NO_TOP || bottom == NO_BOTTOM;
        self.runs(line).iter().any(endless)
    }

    /// Open by lines at these places alone, of so many lines.
    pub fn open_at(&self, fits: impl Fn(&[usize], usize) -> bool) -> bool {
        let places = (0..self.lines.len()).filter(|&place| self.endless(&self.lines[place]));
        let places: Vec<usize> = places.collect();
        self.is_open() && fits(&places, self.lines.len())
    }

    /// Open by no other spans than those without the ends that are true here.
    pub fn open_sides(&self, sides: [bool; 2]) -> bool {
        let runs = self.lines.iter().flat_map(|line| self.runs(line));
        let side = |&(top, bottom): &(i64, i64)| [top == NO_TOP, bottom == NO_BOTTOM];
        let mut missing = runs
            .map(side)
            .filter(|side| side.contains(&true))
            .peekable();
        self.is_open() && missing.peek().is_some() && missing.all(|found| found == sides)
    }

    /// Whether an item is contradictory, whatever it is joined to.
    pub fn some_bad(&self) -> bool {
        let found = self.found.as_ref();
        found.is_some_and(|found| (0..ITEMS).any(|item| found.is_bad(item)))
    }

    /// Whether the answer about the item would be a contradiction.
    pub fn contradictory(&self) -> bool {
        let fact = Fact::Label {
            item: self.item(),
            label: EVERY,
        };
        let found = self.found.as_ref();
        found.is_some_and(|found| found.contradiction(fact).is_some())
    }

    /// Whether a link leads from the one item to the other, either way.
    pub fn linked(&self, item: u8, other: u8) -> bool {
        let found = self.found.as_ref();
        found.is_some_and(|found| found.leads(item, other) || found.leads(other, item))
    }

    /// A total that would be another answer if another thing were held.
    pub fn turned_by(&self, other: Held, fits: impl Fn(Charge) -> bool) -> bool {
        let other = || charged(&Collection::least(&other), self.item(), &self.lines);
        self.is_total() && fits(other())
    }

    /// Spans of a listed label that are another item's.
    pub fn elsewhere(&self, fits: impl Fn(&(i64, i64)) -> bool) -> bool {
        let others = |line: &Line| {
            let items = (0..ITEMS).filter(|&item| item != self.item());
            let mut runs = items.flat_map(|item| self.runs_of(item, line).to_vec());
            line.label != EVERY.into() && runs.any(|run| fits(&run))
        };
        self.line(others)
    }

    /// The places of lines whose label is none.
    pub fn nameless(&self) -> Vec<usize> {
        let bad = |&place: &usize| self.lines[place].label >= LABELS.into();
        (0..self.lines.len()).filter(bad).collect()
    }

    /// The places of lines with a price, or a least price, that is too high.
    pub fn dear(&self, price: impl Fn(&Line) -> u32) -> Vec<usize> {
        let dear = |&place: &usize| price(&self.lines[place]) > MAX_PRICE;
        (0..self.lines.len()).filter(dear).collect()
    }

    pub fn dear_prices(&self) -> Vec<usize> {
        self.dear(|line| line.price)
    }

    pub fn dear_leasts(&self) -> Vec<usize> {
        self.dear(|line| line.least)
    }

    pub fn good_item(&self) -> bool {
        self.bill.item < ITEMS.into()
    }

    /// Whether 6 would be given if nothing before it were.
    pub fn six_applies(&self) -> bool {
        !self.good_item() || !self.nameless().is_empty()
    }

    /// The same of 13.
    pub fn thirteen_applies(&self) -> bool {
        self.too_many() || !self.dear_prices().is_empty() || !self.dear_leasts().is_empty()
    }

    pub fn too_many(&self) -> bool {
        self.count() > MAX_LINES
    }

    /// Refused with 6 by the item alone, which fits.
    pub fn six_by_item(&self, fits: impl Fn(u32) -> bool) -> bool {
        self.refused(6) && self.nameless().is_empty() && fits(self.bill.item)
    }

    /// Refused with 6 by one label alone, at a place that fits.
    pub fn six_by_label(&self, fits: impl Fn(usize, u32) -> bool) -> bool {
        let places = self.nameless();
        self.refused(6)
            && self.good_item()
            && places.len() == 1
            && fits(places[0], self.lines[places[0]].label)
    }

    /// Refused with 13 by the number of lines alone, which fits.
    pub fn thirteen_by_count(&self, fits: impl Fn(usize) -> bool) -> bool {
        let dear = [self.dear_prices(), self.dear_leasts()].concat();
        self.refused(13) && dear.is_empty() && fits(self.count())
    }

    /// Refused with 13 by one price, or one least price, alone, which fits with its place.
    pub fn thirteen_by(&self, least: bool, fits: impl Fn(usize, u32) -> bool) -> bool {
        let price = |line: &Line| if least { line.least } else { line.price };
        let all = [self.dear_prices(), self.dear_leasts()].concat();
        let by = self.dear(price);
        self.refused(13)
            && !self.too_many()
            && all.len() == 1
            && by.len() == 1
            && fits(by[0], price(&self.lines[by[0]]))
    }

    /// Refused with 1 by these lengths: block, labels, links, lines.
    pub fn short(&self, wanted: [bool; 4]) -> bool {
        let (lent, exact) = (self.lent, Lent::EXACT);
        let short = [
            lent.block < exact.block,
            lent.labels < exact.labels,
            lent.links < exact.links,
            self.bill.lent % LINE_NUMBERS != 0,
        ];
        self.refused(1) && short == wanted
    }

    /// Right after a shift that moved something.
    pub fn after_shift(&self) -> bool {
        let shifted = matches!(self.last, Some(Record::Shift(by)) if by != 0);
        shifted && !self.shown.movable().is_empty()
    }
}
