//! Cases with stretches and with countings that a run has to meet, each by its name; those with
//! holes stand in `hole_cases.rs`, those with the profile in `profile_cases.rs`, those with shifts in
//! `shift_cases.rs`, those with wells in `joined_cases.rs`, those with charges in `charge_cases.rs`.

use crate::distance::{near_starts, Start};
use model::block::{read, COUNTING_AT, RULES_AT};
use model::derive::Collection;
use model::frame;
use model::held::Held;
use model::terms::Counting::{New, Old};
use model::terms::*;

pub const DONE: Answer = Answer::Done;

/// A record call: the lists before it, the record if one could be read, and the answer.
pub struct Seen {
    /// What the block's places show, whether records lead to it or not.
    pub shown: Held,
    /// The block's bytes before the places, whatever they are.
    pub header: Vec<u8>,
    pub length: u16,
    pub kind: u16,
    pub record: Option<Record>,
    /// The record that last changed what is held.
    pub last: Option<Record>,
    pub answer: Answer,
    /// The numbers that an answer of spans wrote.
    pub written: Vec<i32>,
}

impl Seen {
    pub fn new(block: &[u8], input: &[u8], answer: Answer, spans: &[i32]) -> Seen {
        let frame = frame::split(input).ok();
        let written = match answer {
            Answer::Spans(count) => 2 * count as usize,
            _ => 0,
        };
        Seen {
            shown: read(block).unwrap_or_default(),
            header: block[..RULES_AT].to_vec(),
            length: number_at(input, 0),
            kind: number_at(input, 2),
            record: frame.as_ref().map(frame::read),
            last: None,
            answer,
            written: spans[..written].to_vec(),
        }
    }

    /// The same behind the record that last changed what is held.
    pub fn behind(self, last: Option<Record>) -> Seen {
        Seen { last, ..self }
    }

    /// A put with that answer of a mark that fits.
    pub fn put(&self, answer: Answer, fits: impl Fn(Mark) -> bool) -> bool {
        matches!(self.record, Some(Record::Put(mark)) if self.answer == answer && fits(mark))
    }

    pub fn take(&self, answer: Answer, fits: impl Fn(Mark) -> bool) -> bool {
        matches!(self.record, Some(Record::Take(mark)) if self.answer == answer && fits(mark))
    }

    /// A question at a depth that fits.
    pub fn query(&self, fits: impl Fn(Fact, i64) -> bool) -> bool {
        matches!(self.record, Some(Record::Query(fact, depth)) if fits(fact, depth))
    }

    /// A put of a stretch while so many depths are marked, with that many new ends.
    fn put_at(&self, answer: Answer, marked: usize, new: usize) -> bool {
        self.put(answer, |mark| {
            let ends = self.shown.ends();
            let fresh = mark.ends().into_iter().filter(|end| !ends.contains(end));
            ends.len() == marked && fresh.count() == new && stretch(mark)
        })
    }

    /// A held mark of the same fact that fits.
    fn holds(&self, fact: Fact, fits: impl Fn(Mark) -> bool) -> bool {
        let mut marks = self.shown.marks.iter();
        marks.any(|&held| held.fact == fact && fits(held))
    }

    /// A stretch that was put, with a held mark that it goes by.
    fn put_by(&self, fits: fn(Mark, Mark) -> bool) -> bool {
        self.put(DONE, |new| {
            stretch(new) && self.holds(new.fact, |held| fits(held, new))
        })
    }

    fn question_inside(&self) -> bool {
        let inside = |depth, mark: Mark| {
            let [top, bottom] = mark.ends().map(i64::from);
            top < depth && depth < bottom
        };
        let held = |fact, depth| self.holds(fact, |mark| inside(depth, mark));
        self.answer == Answer::Yes && self.query(held)
    }

    /// A point that is not held at the top of a stretch that is.
    fn take_at_top(&self) -> bool {
        self.take(Answer::Refused(10), |mark| {
            let at_top = |held: Mark| stretch(held) && held.top == mark.top;
            mark.is_point() && self.holds(mark.fact, at_top)
        })
    }

    /// A record of kind 17 with that answer, which names a counting that fits, or none.
    pub fn named(&self, answer: Answer, fits: impl Fn(Option<Counting>) -> bool) -> bool {
        matches!(self.record, Some(Record::Counting(value))
            if self.answer == answer && fits(Counting::named(value)))
    }

    fn in_force(&self, named: Option<Counting>) -> bool {
        named == Some(self.shown.counting)
    }

    /// A counting other than the one in force was set.
    fn set(&self, counting: Counting) -> bool {
        self.named(DONE, |named| {
            named == Some(counting) && !self.in_force(named)
        })
    }

    pub fn refused_length(&self, kind: u16, length: u16) -> bool {
        let five = self.answer == Answer::Refused(5);
        five && self.kind == kind && self.length == length
    }

    /// A question by that counting, with that answer, about what a held WITHIN n concludes between
    /// two held marks that are n and so many more apart.
    fn between(&self, counting: Counting, answer: Answer, more: i64) -> bool {
        let gap = |depth, j: Start, k: Start| {
            let (bottom, top) = (i64::from(j.mark.bottom), i64::from(k.mark.top));
            let same = j.mark.fact == k.mark.fact && j.op == k.op;
            same && bottom < depth && depth < top && top - bottom == i64::from(j.op.n) + more
        };
        let in_gap = |fact, depth| {
            let concluding = || near_starts(&self.shown).filter(|start| start.concluded == fact);
            let mut firsts = concluding();
            firsts.any(|j| concluding().any(|k| gap(depth, j, k)))
        };
        self.shown.counting == counting && self.answer == answer && self.query(in_gap)
    }

    /// Whether what is asked holds by that counting.
    fn holds_by(&self, counting: Counting) -> bool {
        let held = Held {
            counting,
            ..self.shown.clone()
        };
        self.query(|fact, depth| Collection::least(&held).of(fact).has(depth))
    }

    /// A block that was not turned away.
    pub fn good_block(&self) -> bool {
        ![Answer::Refused(1), Answer::Refused(2)].contains(&self.answer)
    }

    /// A block with rules, marks and the new counting that was not turned away.
    fn good_counting(&self) -> bool {
        let set = self.header[COUNTING_AT] == 1;
        self.good_block() && set && ruled(&self.shown) && marked(&self.shown)
    }

    /// A block with rules in which nothing but the counting is wrong.
    fn bad_counting(&self) -> bool {
        self.header[COUNTING_AT] > 1 && self.bad_block(|held| ruled(held) && held.reachable())
    }

    /// A refused block whose marks fit.
    pub fn bad_block(&self, fits: impl Fn(&Held) -> bool) -> bool {
        self.answer == Answer::Refused(2) && fits(&self.shown)
    }

    fn bad_mark(&self, fits: fn(Mark) -> bool) -> bool {
        self.bad_block(|held| held.marks.iter().any(|&mark| fits(mark)))
    }
}

/// The two bytes at a place of the input, as far as it goes.
fn number_at(input: &[u8], at: usize) -> u16 {
    let byte = |at| input.get(at).copied().unwrap_or(0);
    u16::from_le_bytes([byte(at), byte(at + 1)])
}

pub fn ruled(held: &Held) -> bool {
    !held.rules.is_empty()
}

pub fn marked(held: &Held) -> bool {
    !held.marks.is_empty()
}

fn stretch(mark: Mark) -> bool {
    mark.top < mark.bottom
}

fn point(mark: Mark) -> bool {
    mark.is_point()
}

fn reversed(mark: Mark) -> bool {
    mark.top > mark.bottom
}

pub fn out_of_range(end: i32) -> bool {
    !(SHALLOWEST..=DEEPEST).contains(&end)
}

/// How many ends are out of range.
fn ends_out(mark: Mark) -> usize {
    let ends = mark.ends().into_iter();
    ends.filter(|&end| out_of_range(end)).count()
}

fn doubled(held: &Held) -> bool {
    let marks = &held.marks;
    (0..marks.len()).any(|place| marks[..place].contains(&marks[place]))
}

fn overlap(held: Mark, new: Mark) -> bool {
    held.top < new.top && new.top < held.bottom && held.bottom < new.bottom
}

fn nest(held: Mark, new: Mark) -> bool {
    held.top < new.top && new.bottom < held.bottom
}

pub type Case = (&'static str, fn(&Seen) -> bool);

pub const CASES: [Case; 44] = [
    ("stretch put", |s| s.put(DONE, stretch)),
    ("stretch taken", |s| s.take(DONE, stretch)),
    ("question inside", Seen::question_inside),
    ("touch above", |s| {
        s.put_by(|held, new| new.bottom + 1 == held.top)
    }),
    ("touch below", |s| {
        s.put_by(|held, new| held.bottom + 1 == new.top)
    }),
    ("overlap", |s| s.put_by(overlap)),
    ("nest", |s| s.put_by(nest)),
    ("cover", |s| s.put_by(|held, new| nest(new, held))),
    ("same top", |s| s.put_by(|held, new| held.top == new.top)),
    ("same bottom", |s| {
        s.put_by(|held, new| held.bottom == new.bottom)
    }),
    ("bottom is top", |s| {
        s.put_by(|held, new| held.bottom == new.top)
    }),
    ("point by a new kind", |s| s.kind > 12 && s.put(DONE, point)),
    ("held point by a new kind", |s| {
        s.kind > 12 && s.put(Answer::Refused(9), point)
    }),
    ("held stretch", |s| s.put(Answer::Refused(9), stretch)),
    ("take at a top", Seen::take_at_top),
    ("2 new ends at 94", |s| s.put_at(DONE, 94, 2)),
    ("1 new end at 95", |s| s.put_at(DONE, 95, 1)),
    ("2 new ends at 95", |s| s.put_at(Answer::Refused(12), 95, 2)),
    ("no new end at 96", |s| s.put_at(DONE, 96, 0)),
    ("1 new end at 96", |s| s.put_at(Answer::Refused(12), 96, 1)),
    ("1 end out of range", |s| {
        s.put(Answer::Refused(8), |mark| ends_out(mark) == 1)
    }),
    ("out of range and reversed", |s| {
        s.put(Answer::Refused(8), reversed)
    }),
    ("reversed take", |s| s.take(Answer::Refused(14), reversed)),
    ("block with a reversed mark", |s| s.bad_mark(reversed)),
    ("block with an end out of range", |s| {
        s.bad_mark(|mark| ends_out(mark) > 0)
    }),
    ("block with a double", |s| s.bad_block(doubled)),
    ("block with 97 ends", |s| {
        s.bad_block(|held| held.ends().len() > MAX_DEPTHS)
    }),
    ("new counting set", |s| s.set(New)),
    ("old counting set", |s| s.set(Old)),
    ("old counting by reset", |s| {
        s.record == Some(Record::Reset) && s.answer == DONE && s.shown.counting == New
    }),
    ("counting in force set", |s| {
        s.named(DONE, |named| s.in_force(named))
    }),
    ("counting set with marks", |s| {
        marked(&s.shown) && s.named(DONE, |named| !s.in_force(named))
    }),
    ("15 for the counting in force", |s| {
        s.named(Answer::Refused(15), |named| s.in_force(named))
    }),
    ("15 for the other counting", |s| {
        s.named(Answer::Refused(15), |named| !s.in_force(named))
    }),
    ("counting 7 without a rule", |s| {
        !ruled(&s.shown) && s.named(Answer::Refused(7), |_| true)
    }),
    ("counting 7 with a rule", |s| {
        ruled(&s.shown) && s.named(Answer::Refused(7), |_| true)
    }),
    ("short counting", |s| s.refused_length(17, 2)),
    ("long counting", |s| s.refused_length(17, 4)),
    ("n - 1 apart by the old", |s| {
        s.between(Old, Answer::Yes, -1)
    }),
    ("n apart by the old", |s| s.between(Old, Answer::No, 0)),
    ("n apart by the new alone", |s| {
        s.between(New, Answer::Yes, 0) && !s.holds_by(Old)
    }),
    ("n + 1 apart by the new", |s| s.between(New, Answer::No, 1)),
    ("block with the new counting", Seen::good_counting),
    ("block with another counting", Seen::bad_counting),
];
