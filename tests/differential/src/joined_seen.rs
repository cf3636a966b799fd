//! What an answered question is seen to be, for the cases of `joined_cases.rs`.

use crate::wells::clash_of;
use model::derive::Collection;
use model::held::Held;
use model::tables::representatives;
use model::terms::*;
use std::collections::BTreeSet;

/// How a question was put.
#[derive(Clone, Copy, Debug, PartialEq, Eq)]
pub enum By {
    Query(i64),
    SpansRecord,
    SpansCall,
}

/// A question that was answered, where a held rule concludes NEVER.
pub struct Asked {
    pub held: Held,
    pub found: Collection,
    pub fact: Fact,
    pub by: By,
    pub answer: Answer,
    /// The record that last changed what is held.
    pub last: Option<Record>,
}

/// How many steps at least lead from one item to the other, if any do.
fn steps(from: u8, to: u8, step: impl Fn(u8, u8) -> bool) -> Option<usize> {
    let mut reached = BTreeSet::from([from]);
    (0..usize::from(ITEMS)).find(|_| {
        let there = reached.contains(&to);
        let next = |item: &u8| reached.iter().any(|&before| step(before, *item));
        let more: Vec<u8> = (0..ITEMS).filter(next).collect();
        reached.extend(more);
        there
    })
}

impl Asked {
    /// None where no held rule concludes NEVER.
    pub fn new(
        held: Held,
        (fact, by): (Fact, By),
        answer: Answer,
        last: Option<Record>,
    ) -> Option<Asked> {
        let clashes = held.rules.iter().any(|rule| clash_of(rule).is_some());
        clashes.then(|| Asked {
            found: Collection::least(&held),
            held,
            fact,
            by,
            answer,
            last,
        })
    }

    /// The item of a question about one item.
    pub fn alone(&self) -> Option<u8> {
        let [one, other] = self.fact.items();
        (one == other).then_some(one)
    }

    /// The ends of a link question, where they differ.
    pub fn ends(&self) -> Option<[u8; 2]> {
        let ends = self.fact.items();
        (ends[0] != ends[1]).then_some(ends)
    }

    pub fn depth(&self) -> Option<i64> {
        match self.by {
            By::Query(depth) => Some(depth),
            _ => None,
        }
    }

    pub fn named(&self) -> Option<u8> {
        match self.answer {
            Answer::Contradiction(item) => Some(item as u8),
            _ => None,
        }
    }

    pub fn bad(&self) -> impl Iterator<Item = u8> + '_ {
        (0..ITEMS).filter(|&item| self.found.is_bad(item))
    }

    /// Those joined to the item that are bad.
    pub fn bad_by(&self, item: u8) -> Vec<u8> {
        let mut joined = self.found.joined([item, item]);
        joined.retain(|&item| self.found.is_bad(item));
        joined
    }

    /// A contradiction about one item, which fits it and the one that is named.
    pub fn hit(&self, fits: impl Fn(u8, u8) -> bool) -> bool {
        let both = self.alone().zip(self.named());
        both.is_some_and(|(item, named)| fits(item, named))
    }

    /// The same where the named item is another.
    pub fn far(&self, fits: impl Fn(u8, u8) -> bool) -> bool {
        self.hit(|item, named| item != named && fits(item, named))
    }

    /// A contradiction about a link between two items, which fits them and the one that is named.
    pub fn hit_link(&self, fits: impl Fn([u8; 2], u8) -> bool) -> bool {
        let both = self.ends().zip(self.named());
        both.is_some_and(|(ends, named)| fits(ends, named))
    }

    /// An answer that is no contradiction although an item is bad.
    pub fn beside(&self) -> bool {
        self.named().is_none() && self.bad().next().is_some()
    }

    pub fn leads(&self, from: u8, to: u8) -> bool {
        self.found.leads(from, to)
    }

    pub fn linked(&self, one: u8, other: u8) -> bool {
        self.leads(one, other) || self.leads(other, one)
    }

    /// How many links lie between the two, followed either way.
    pub fn links(&self, from: u8, to: u8) -> Option<usize> {
        steps(from, to, |one, other| self.linked(one, other))
    }

    /// The same, each followed from its first end to its second.
    pub fn links_along(&self, from: u8, to: u8) -> Option<usize> {
        steps(from, to, |one, other| self.leads(one, other))
    }

    /// Whether links that hold at that depth join the two.
    pub fn joined_at(&self, depth: i64, from: u8, to: u8) -> bool {
        let holds = |one, kind, other| self.found.link(one, kind, other).has(depth);
        let step = |one, other| {
            let mut kinds = 0..KINDS;
            kinds.any(|kind| holds(one, kind, other) || holds(other, kind, one))
        };
        steps(from, to, step).is_some()
    }

    /// Whether links of that kind join the two.
    pub fn joined_by(&self, kind: u8, from: u8, to: u8) -> bool {
        let some = |one, other| !self.found.link(one, kind, other).is_empty();
        steps(from, to, |one, other| some(one, other) || some(other, one)).is_some()
    }

    /// Whether at no depth all links of a chain between the two hold together.
    pub fn at_no_common_depth(&self, from: u8, to: u8) -> bool {
        let depths = representatives(&self.held);
        !depths.iter().any(|&depth| self.joined_at(depth, from, to))
    }

    /// Two links between the two that don't go the same way, with an item in the middle that fits.
    pub fn meet(&self, (one, other): (u8, u8), middle: impl Fn(u8) -> bool) -> bool {
        let one_way = self
            .links_along(one, other)
            .or(self.links_along(other, one));
        self.links(one, other) == Some(2) && one_way.is_none() && (0..ITEMS).any(middle)
    }

    /// What would be said of the same with other marks: the item of a contradiction.
    fn named_with(&self, marks: Vec<Mark>) -> Option<u8> {
        let held = Held {
            marks,
            ..self.held.clone()
        };
        Collection::least(&held).contradiction(self.fact)
    }

    /// A contradiction that came with the mark put last, which fits.
    pub fn came_with(&self, fits: impl Fn(Fact) -> bool) -> bool {
        let Some(Record::Put(mark)) = self.last.filter(|_| self.named().is_some()) else {
            return false;
        };
        let others = self.held.marks.iter().filter(|&&held| held != mark);
        fits(mark.fact) && self.named_with(others.copied().collect()).is_none()
    }

    /// No contradiction any more without the mark taken last, which fits.
    pub fn gone_with(&self, fits: impl Fn(Fact) -> bool) -> bool {
        let Some(Record::Take(mark)) = self.last.filter(|_| self.named().is_none()) else {
            return false;
        };
        let marks = [&self.held.marks[..], &[mark]].concat();
        fits(mark.fact) && self.named_with(marks).is_some()
    }

    /// A contradiction about one item by the other end of a link that was taken last, since
    /// another link between the two is still there.
    pub fn kept_by_another_link(&self) -> bool {
        let Some(Record::Take(mark)) = self.last else {
            return false;
        };
        let [from, to] = mark.fact.items();
        let between = |pair| pair == (from, to) || pair == (to, from);
        self.far(|item, named| between((item, named)) && self.linked(item, named))
    }

    /// Whether the question's depth lies outside the hole, where there is one.
    pub fn outside(&self) -> Option<bool> {
        let hole = self.held.hole?;
        let [top, bottom] = hole.ends().map(i64::from);
        self.depth().map(|depth| depth < top || depth > bottom)
    }
}
