//! Cases with charges that a run has to meet, each by its name.

use crate::charge_seen::{by_metres, Billed};
use model::charge::{Charge, Line, MAX_LINES, MAX_PRICE};
use model::depths::{NO_BOTTOM, NO_TOP};
use model::held::Held;
use model::terms::Counting::{New, Old};
use model::terms::*;
use panel::Empty;

pub type ChargeCase = (&'static str, fn(&Billed) -> bool);

/// A rule by which the counting can decide something: WITHIN 1 gives the same by either.
fn counting_matters(rule: &Rule) -> bool {
    rule.operator()
        .is_some_and(|op| op.code == WITHIN && op.n > 1)
}

impl Billed {
    /// A total by that counting that the other one would change.
    fn by_counting(&self, counting: Counting) -> bool {
        let other = if counting == Old { New } else { Old };
        let held = &self.shown;
        held.counting == counting
            && held.rules.iter().any(counting_matters)
            && self.turned_by(
                Held {
                    counting: other,
                    ..held.clone()
                },
                |charge| charge != self.answer,
            )
    }

    /// A total where all spans end with the hole that would be open without it.
    fn ended_by_hole(&self) -> bool {
        let held = Held {
            hole: None,
            ..self.shown.clone()
        };
        self.shown.hole.is_some() && self.turned_by(held, |charge| charge == Charge::Open)
    }

    /// A line of which one span costs the least price and another more.
    fn both_prices(&self) -> bool {
        self.line(|line| {
            let by = |length| by_metres(*line, length).cmp(&line.least.into());
            let sorts: Vec<_> = self.lengths(line).into_iter().map(by).collect();
            sorts.iter().any(|sort| sort.is_lt()) && sorts.iter().any(|sort| sort.is_gt())
        })
    }

    /// A least price over what some metres cost and under what one more does, which has started.
    fn least_between(&self) -> bool {
        self.span(|line, length| {
            let (least, by) = (u128::from(line.least), by_metres(line, length));
            by > least && by - u128::from(line.price) < least
        })
    }

    /// Refused with 13 though another answer would come next.
    fn thirteen_and(&self, next: impl Fn(&Billed) -> bool) -> bool {
        self.refused(13) && next(self)
    }

    fn lists_endless(&self) -> bool {
        self.lines.iter().any(|line| self.endless(line))
    }

    fn free(&self) -> bool {
        self.lines
            .iter()
            .all(|line| line.price == 0 && line.least == 0)
    }
}

pub const CHARGE_CASES: [ChargeCase; 127] = [
    ("charge without lines", |b| {
        b.lines.is_empty() && b.total(|total| total == 0)
    }),
    ("no lines by a null pointer", |b| {
        b.bill.lent == 0 && b.empty == Empty::Null && b.is_total()
    }),
    ("charge of one span", |b| {
        b.of_spans(|line| b.runs(line).len() == 1)
    }),
    ("charge of several spans", |b| {
        b.of_spans(|line| b.runs(line).len() > 2)
    }),
    ("charge of over twenty spans", |b| {
        b.of_spans(|line| b.runs(line).len() > 20)
    }),
    ("charge of 96 spans", |b| {
        b.of_spans(|line| b.runs(line).len() == MAX_DEPTHS)
    }),
    ("one line charged", |b| {
        b.count() == 1 && b.of_spans(|_| true)
    }),
    ("three lines charged", |b| {
        b.count() == 3 && b.total(|total| total > 0)
    }),
    ("fifteen lines charged", |b| {
        b.count() == 15 && b.total(|total| total > 0)
    }),
    ("sixteen lines charged", |b| {
        b.count() == MAX_LINES && b.total(|total| total > 0)
    }),
    ("spans of the sixteenth line alone", |b| {
        let of_spans = |line| !b.runs(line).is_empty();
        let first = b.lines.iter().position(of_spans);
        first == Some(MAX_LINES - 1) && b.total(|total| total > 0)
    }),
    ("two labels with spans", |b| {
        let first = b.lines.first().copied();
        b.of_spans(|line| {
            first.is_some_and(|first| first.label != line.label && !b.runs(&first).is_empty())
        })
    }),
    ("a label without spans beside one with", |b| {
        b.of_spans(|_| true) && b.line(|line| b.runs(line).is_empty() && line.least > 0)
    }),
    ("labels without spans alone", |b| {
        b.line(|line| line.least > 0) && !b.of_spans(|_| true)
    }),
    ("1 cm", |b| b.of_length(1)),
    ("2 cm", |b| b.of_length(2)),
    ("99 cm", |b| b.of_length(99)),
    ("100 cm", |b| b.of_length(100)),
    ("101 cm", |b| b.of_length(101)),
    ("199 cm", |b| b.of_length(199)),
    ("200 cm", |b| b.of_length(200)),
    ("201 cm", |b| b.of_length(201)),
    ("1,000 cm", |b| b.of_length(1_000)),
    ("1,001 cm", |b| b.of_length(1_001)),
    ("over a kilometre", |b| {
        b.span(|line, length| length > 100_000 && by_metres(line, length) > line.least.into())
    }),
    ("the whole range", |b| b.of_length(210_001)),
    ("span across zero", |b| {
        b.lies(|top, bottom| top < 0 && bottom > 0)
    }),
    ("span above zero", |b| {
        b.lies(|top, bottom| top < bottom && bottom < 0)
    }),
    ("span that ends at zero", |b| {
        b.lies(|top, bottom| top < 0 && bottom == 0)
    }),
    ("span from the shallowest depth", |b| {
        b.lies(|top, _| top == SHALLOWEST.into())
    }),
    ("span to the deepest depth", |b| {
        b.lies(|_, bottom| bottom == DEEPEST.into())
    }),
    ("least price larger", |b| {
        b.span(|line, length| line.price > 0 && by_metres(line, length) < line.least.into())
    }),
    ("least price smaller", |b| {
        b.span(|line, length| line.least > 0 && by_metres(line, length) > line.least.into())
    }),
    ("least price equal", |b| {
        b.span(|line, length| line.least > 0 && by_metres(line, length) == line.least.into())
    }),
    ("least price one more", |b| {
        b.span(|line, length| by_metres(line, length) + 1 == line.least.into())
    }),
    ("least price one less", |b| {
        b.span(|line, length| {
            line.least > 0 && by_metres(line, length) == u128::from(line.least) + 1
        })
    }),
    (
        "least price under that of the last metre",
        Billed::least_between,
    ),
    ("least price for one span of a line", Billed::both_prices),
    ("least price of several spans", |b| {
        b.line(|line| {
            let small = |&length: &u128| by_metres(*line, length) < line.least.into();
            b.lengths(line)
                .iter()
                .filter(|length| small(length))
                .count()
                > 1
        })
    }),
    ("price 0 and a least price", |b| {
        b.of_spans(|line| line.price == 0 && line.least > 0)
    }),
    ("price without a least price", |b| {
        b.of_spans(|line| line.price > 0 && line.least == 0)
    }),
    ("spans for nothing", |b| b.free() && b.of_spans(|_| true)),
    ("price 1", |b| b.of_spans(|line| line.price == 1)),
    ("price 999,999", |b| {
        b.of_spans(|line| line.price == MAX_PRICE - 1)
    }),
    ("price 1,000,000", |b| {
        b.of_spans(|line| line.price == MAX_PRICE)
    }),
    ("least price 1", |b| b.of_spans(|line| line.least == 1)),
    ("least price 1,000,000", |b| {
        b.span(|line, length| {
            line.least == MAX_PRICE && by_metres(line, length) < line.least.into()
        })
    }),
    ("total over 31 bits", |b| {
        b.total(|total| total > i32::MAX as u64 && total <= u32::MAX.into())
    }),
    ("total over 32 bits", |b| {
        b.total(|total| total > u32::MAX.into())
    }),
    ("one line over 31 bits", |b| {
        b.count() == 1 && b.total(|total| total > i32::MAX as u64)
    }),
    ("the largest total", |b| {
        b.total(|total| total == 35_104_000_000)
    }),
    ("label twice", |b| {
        b.twice(|one, other| !b.runs(one).is_empty() && one != other)
    }),
    ("line twice", |b| {
        b.twice(|one, other| !b.runs(one).is_empty() && one == other && one.price > 0)
    }),
    ("label sixteen times", |b| {
        let first = b.lines.first().map(|line| line.label);
        let same = b.lines.iter().all(|line| Some(line.label) == first);
        b.count() == MAX_LINES && same && b.total(|total| total > 0)
    }),
    ("NEVER listed", |b| {
        b.line(|line| line.label == NEVER.into())
    }),
    ("spans of another item alone", |b| {
        b.total(|total| total == 0) && b.elsewhere(|_| true) && !b.of_spans(|_| true)
    }),
    ("an endless span of another item", |b| {
        b.elsewhere(|&(top, bottom)| top == NO_TOP || bottom == NO_BOTTOM)
    }),
    ("EVERY in a hole", |b| {
        b.shown.hole.is_some() && b.of_spans(|line| line.label == EVERY.into())
    }),
    ("EVERY in a hole without marks", |b| {
        b.shown.marks.is_empty() && b.of_spans(|line| line.label == EVERY.into())
    }),
    ("EVERY in a hole of one depth", |b| {
        let one = b.shown.hole.is_some_and(|hole| hole.top == hole.bottom);
        one && b.of_spans(|line| line.label == EVERY.into())
    }),
    ("spans that the hole ends", Billed::ended_by_hole),
    ("charge by the old counting", |b| b.by_counting(Old)),
    ("charge by the new counting", |b| b.by_counting(New)),
    ("charge in the profile", |b| {
        b.shown.profile && b.of_spans(|_| true)
    }),
    ("charge of a derived label", |b| {
        b.of_spans(|line| {
            let label = line.label as u8;
            let marked =
                |mark: &Mark| matches!(mark.fact, Fact::Label { label: l, .. } if l == label);
            label != EVERY && !b.shown.marks.iter().any(marked)
        })
    }),
    ("charge right after a shift", |b| {
        b.after_shift() && b.of_spans(|line| line.price > 0)
    }),
    ("open right after a shift", |b| {
        b.after_shift() && b.is_open()
    }),
    ("charge right after a put", |b| {
        matches!(b.last, Some(Record::Put(_))) && b.of_spans(|_| true)
    }),
    ("charge right after a take", |b| {
        matches!(b.last, Some(Record::Take(_))) && b.of_spans(|_| true)
    }),
    ("charge right after a reset", |b| {
        b.last == Some(Record::Reset) && b.is_total()
    }),
    ("open above", |b| b.open_sides([true, false])),
    ("open below", |b| b.open_sides([false, true])),
    ("open on both sides", |b| b.open_sides([true, true])),
    ("open at price 0", |b| b.is_open() && b.free()),
    ("open by a line for nothing", |b| {
        b.open_at(|places, _| {
            let line = |place: &usize| b.lines[*place];
            let free = |place| line(place).price == 0 && line(place).least == 0;
            places.iter().all(free) && !b.free()
        })
    }),
    ("open by EVERY alone", |b| {
        b.open_at(|places, _| {
            let label = |place: &usize| b.lines[*place].label;
            places.iter().all(|place| label(place) == EVERY.into())
        })
    }),
    ("open by a label other than EVERY", |b| {
        b.open_at(|places, _| {
            let label = |place: &usize| b.lines[*place].label;
            places.iter().all(|place| label(place) != EVERY.into())
        })
    }),
    ("open by the first line alone", |b| {
        b.open_at(|places, count| count > 2 && places == [0])
    }),
    ("open by the last line alone", |b| {
        b.open_at(|places, count| count > 2 && places == [count - 1])
    }),
    ("open by the sixteenth line alone", |b| {
        b.open_at(|places, _| places == [MAX_LINES - 1])
    }),
    ("open beside a span with both ends", |b| {
        let some = |line| b.endless(line) && !b.lengths(line).is_empty();
        b.is_open() && b.lines.iter().any(some)
    }),
    ("open behind a line of spans", |b| {
        let first = b.lines.first();
        let ended = |line| !b.runs(line).is_empty() && !b.endless(line);
        b.is_open() && first.is_some_and(ended)
    }),
    ("open though another item is contradictory", |b| {
        b.is_open() && b.some_bad()
    }),
    ("contradiction of the item", |b| {
        b.clash(|item, named| item == named)
    }),
    ("contradiction of a linked item", |b| {
        b.clash(|item, named| item != named && b.linked(item, named))
    }),
    ("contradiction by a chain", |b| {
        b.clash(|item, named| item != named && !b.linked(item, named))
    }),
    ("contradiction of a higher item", |b| {
        b.clash(|item, named| item < named)
    }),
    ("contradiction without lines", |b| {
        b.clash(|_, _| b.lines.is_empty())
    }),
    ("contradiction where a listed label is open", |b| {
        b.clash(|_, _| b.lists_endless())
    }),
    ("contradiction with NEVER listed", |b| {
        let never = |line: &Line| line.label == NEVER.into();
        b.clash(|_, _| b.lines.iter().any(never))
    }),
    ("total though another item is contradictory", |b| {
        b.some_bad() && b.of_spans(|line| line.price > 0)
    }),
    ("6 by item 16", |b| b.six_by_item(|item| item == 16)),
    ("6 by item 255", |b| b.six_by_item(|item| item == 255)),
    ("6 by item 256", |b| b.six_by_item(|item| item == 256)),
    ("6 by an item over 256", |b| {
        b.six_by_item(|item| item > 256 && item % 256 < 16)
    }),
    ("6 by the greatest item", |b| {
        b.six_by_item(|item| item == u32::MAX)
    }),
    ("6 by the item without lines", |b| {
        b.bill.lent == 0 && b.six_by_item(|_| true)
    }),
    ("6 by label 64", |b| b.six_by_label(|_, label| label == 64)),
    ("6 by label 256 and a good one", |b| {
        b.six_by_label(|_, label| label > 255 && label % 256 < 64)
    }),
    ("6 by the greatest label", |b| {
        b.six_by_label(|_, label| label == u32::MAX)
    }),
    ("6 by the first label alone", |b| {
        b.count() > 1 && b.six_by_label(|place, _| place == 0)
    }),
    ("6 by the last label alone", |b| {
        b.count() > 1 && !b.too_many() && b.six_by_label(|place, _| place == b.count() - 1)
    }),
    ("6 by a label behind the sixteenth line", |b| {
        b.six_by_label(|place, _| place >= MAX_LINES)
    }),
    ("6 by the item where 13 applies too", |b| {
        b.too_many() && b.six_by_item(|_| true)
    }),
    ("6 by a label where a price is too high", |b| {
        let dear = [b.dear_prices(), b.dear_leasts()].concat();
        !dear.is_empty() && !b.too_many() && b.six_by_label(|_, _| true)
    }),
    ("13 by 17 lines", |b| {
        b.thirteen_by_count(|count| count == MAX_LINES + 1)
    }),
    ("13 by 20 lines", |b| {
        b.thirteen_by_count(|count| count == 20)
    }),
    ("13 by price 1,000,001", |b| {
        b.thirteen_by(false, |_, price| price == MAX_PRICE + 1)
    }),
    ("13 by least price 1,000,001", |b| {
        b.thirteen_by(true, |_, price| price == MAX_PRICE + 1)
    }),
    ("13 by the greatest prices", |b| {
        b.thirteen_by(false, |_, price| price == u32::MAX)
            || b.thirteen_by(true, |_, price| price == u32::MAX)
    }),
    ("13 by a price of the sixteenth line", |b| {
        b.thirteen_by(false, |place, _| place == MAX_LINES - 1)
            || b.thirteen_by(true, |place, _| place == MAX_LINES - 1)
    }),
    ("13 where the section is contradictory", |b| {
        b.thirteen_and(Billed::contradictory)
    }),
    ("13 where a listed label is open", |b| {
        b.thirteen_and(|b| !b.contradictory() && b.lists_endless())
    }),
    ("13 for a label without spans", |b| {
        b.thirteen_by(false, |place, _| b.runs(&b.lines[place]).is_empty())
    }),
    ("1 by the block", |b| b.short([true, false, false, false])),
    ("1 by the label table", |b| {
        b.short([false, true, false, false])
    }),
    ("1 by the link table", |b| {
        b.short([false, false, true, false])
    }),
    ("1 by the lines", |b| b.short([false, false, false, true])),
    ("1 by no memory at all", |b| {
        b.short([true, true, true, false])
    }),
    ("1 by one number", |b| {
        b.bill.lent == 1 && b.short([false, false, false, true])
    }),
    ("1 by two numbers", |b| {
        b.bill.lent == 2 && b.short([false, false, false, true])
    }),
    ("1 by the lines on a bad block", |b| {
        !b.good && b.short([false, false, false, true])
    }),
    ("1 by the lines where 6 applies", |b| {
        b.six_applies() && b.short([false, false, false, true])
    }),
    ("1 by the lines where 13 applies", |b| {
        b.thirteen_applies() && b.short([false, false, false, true])
    }),
    ("charge on a bad block", |b| b.refused(2)),
    ("2 where 6 applies", |b| b.refused(2) && b.six_applies()),
    ("2 where 13 applies", |b| {
        b.refused(2) && b.thirteen_applies()
    }),
];

/// Charges that are asked for with a section as it is and moved, for each way.
pub const MOVED_CHARGE_CASES: [ChargeCase; 9] = [
    ("charge of no lines", |b| b.lines.is_empty() && b.is_total()),
    ("charge of one span", |b| {
        b.count() == 1 && b.of_spans(|line| b.runs(line).len() == 1)
    }),
    ("charge of several spans", |b| {
        b.of_spans(|line| b.runs(line).len() > 1)
    }),
    ("charge by metres and by a least price", Billed::both_prices),
    ("charge in a hole", |b| {
        b.shown.hole.is_some() && b.of_spans(|_| true)
    }),
    ("charge open above", |b| b.open_sides([true, false])),
    ("charge open below", |b| b.open_sides([false, true])),
    ("charge open on both sides", |b| b.open_sides([true, true])),
    ("charge contradictory", |b| b.clash(|_, _| true)),
];
