//! Cases with wells that are joined or apart that a run has to meet, each by its name.

use crate::joined_seen::{Asked, By};
use model::terms::*;

pub type JoinedCase = (&'static str, fn(&Asked) -> bool);

impl Asked {
    /// A label question, with that answer, beside a bad item.
    fn label_beside(&self, answer: Answer) -> bool {
        self.beside() && !self.fact.is_link() && self.answer == answer && self.depth().is_some()
    }

    fn link_beside(&self, answer: Answer) -> bool {
        self.beside() && self.fact.is_link() && self.answer == answer
    }

    /// Spans, asked in that way, so many that fit, beside a bad item.
    fn spans_beside(&self, by: By, fits: fn(u32) -> bool) -> bool {
        let fits = matches!(self.answer, Answer::Spans(count) if fits(count));
        self.beside() && self.by == by && fits
    }

    fn self_link_alone(&self) -> bool {
        let Some(item) = self.alone() else {
            return false;
        };
        let joined = self.found.joined([item, item]);
        self.beside() && self.leads(item, item) && joined == [item]
    }

    /// Of the wells of the two ends, whether each is bad.
    fn bad_ends(&self, wanted: [bool; 2]) -> bool {
        self.hit_link(|ends, _| ends.map(|end| !self.bad_by(end).is_empty()) == wanted)
    }

    /// Both wells are bad and apart, and the item named is in that of the end at this place.
    fn named_by_end(&self, place: usize) -> bool {
        self.bad_ends([true, true])
            && self.hit_link(|ends, named| {
                let apart = self.links(ends[0], ends[1]).is_none();
                apart && self.links(ends[place], named).is_some()
            })
    }

    /// A loop of three items or more through the item and the one that is named.
    fn in_a_loop(&self) -> bool {
        self.far(|item, named| {
            let there = self.links_along(item, named);
            let back = self.links_along(named, item);
            there
                .zip(back)
                .is_some_and(|(there, back)| there + back > 2)
        })
    }

    /// NEVER stands at depths at which no link between the two does.
    fn never_beside_the_link(&self) -> bool {
        self.far(|item, named| {
            let never = self.found.label(named, NEVER);
            let away = |from, to| {
                let mut kinds = 0..KINDS;
                kinds.all(|kind| self.found.link(from, kind, to).meet(never).is_empty())
            };
            self.links(item, named) == Some(1) && away(item, named) && away(named, item)
        })
    }

    /// A link question whose kind alone does not join either end to the item named.
    fn by_another_kind(&self) -> bool {
        let Fact::Link { from, kind, to } = self.fact else {
            return false;
        };
        let joins = |end, named| self.joined_by(kind, end, named);
        let named = self.named();
        named.is_some_and(|named| !joins(from, named) && !joins(to, named))
    }

    fn by_two_kinds(&self) -> bool {
        self.far(|item, named| (0..KINDS).all(|kind| !self.joined_by(kind, item, named)))
    }

    fn joined_at_another_depth(&self) -> bool {
        let depth = self.depth();
        depth.is_some_and(|depth| self.far(|item, named| !self.joined_at(depth, item, named)))
    }

    fn never_at_another_depth(&self) -> bool {
        let at = |depth| self.hit(|_, named| !self.found.label(named, NEVER).has(depth));
        self.depth().is_some_and(at)
    }

    /// The lowest joined item is neither asked about nor named.
    fn a_lower_one_is_clean(&self) -> bool {
        self.far(|item, named| {
            let lowest = self.found.joined([item, item]).into_iter().min();
            lowest < Some(item.min(named))
        })
    }

    fn a_nearer_one_is_bad(&self) -> bool {
        self.far(|item, named| {
            let bad = self.bad_by(item);
            bad.iter()
                .any(|&other| self.links(item, other) < self.links(item, named))
        })
    }

    /// All items are bad, and none lower than the one asked about is joined to it.
    fn all_are_bad(&self) -> bool {
        self.bad().count() == usize::from(ITEMS)
            && self.hit(|item, named| item == named && item > 0)
    }

    fn marked_elsewhere(&self, fact: Fact) -> bool {
        !fact.is_link() && !self.fact.items().contains(&fact.items()[0])
    }
}

pub const JOINED_CASES: [JoinedCase; 57] = [
    ("contradiction of the item itself", |a| {
        a.hit(|item, named| item == named)
    }),
    ("by a link along", |a| {
        a.far(|item, named| a.leads(item, named) && !a.leads(named, item))
    }),
    ("by a link against", |a| {
        a.far(|item, named| a.leads(named, item) && !a.leads(item, named))
    }),
    ("by links both ways", |a| {
        a.far(|item, named| a.leads(named, item) && a.leads(item, named))
    }),
    ("by two links along", |a| {
        a.far(|item, named| {
            a.links(item, named) == Some(2) && a.links_along(item, named) == Some(2)
        })
    }),
    ("by two links against", |a| {
        a.far(|item, named| {
            a.links(item, named) == Some(2) && a.links_along(named, item) == Some(2)
        })
    }),
    ("along, then against", |a| {
        a.far(|item, named| a.meet((item, named), |m| a.leads(item, m) && a.leads(named, m)))
    }),
    ("against, then along", |a| {
        a.far(|item, named| a.meet((item, named), |m| a.leads(m, item) && a.leads(m, named)))
    }),
    ("by three links or more", |a| {
        a.far(|item, named| a.links(item, named) >= Some(3))
    }),
    ("by eight links or more", |a| {
        a.far(|item, named| a.links(item, named) >= Some(8))
    }),
    ("by fifteen links", |a| {
        a.far(|item, named| a.links(item, named) == Some(15))
    }),
    ("in a loop", Asked::in_a_loop),
    ("beside a self link", |a| {
        a.far(|item, _| a.leads(item, item))
    }),
    ("a self link alone", Asked::self_link_alone),
    ("all items joined", |a| {
        a.hit(|item, _| a.found.joined([item, item]).len() == usize::from(ITEMS))
    }),
    ("all items bad", Asked::all_are_bad),
    ("named below the asked", |a| {
        a.far(|item, named| named < item)
    }),
    ("named above the asked", |a| {
        a.far(|item, named| named > item)
    }),
    ("a lower joined item is clean", Asked::a_lower_one_is_clean),
    ("two joined items are bad", |a| {
        a.far(|item, _| a.bad_by(item).len() > 1)
    }),
    ("asked is bad and a lower one named", |a| {
        a.far(|item, _| a.found.is_bad(item))
    }),
    ("a nearer item is bad", Asked::a_nearer_one_is_bad),
    ("a lower item elsewhere is bad", |a| {
        a.hit(|_, named| a.bad().next() < Some(named))
    }),
    ("yes beside a bad well", |a| a.label_beside(Answer::Yes)),
    ("no beside a bad well", |a| a.label_beside(Answer::No)),
    ("spans beside a bad well", |a| {
        a.spans_beside(By::SpansRecord, |count| count > 0)
    }),
    ("no spans beside a bad well", |a| {
        a.spans_beside(By::SpansRecord, |count| count == 0)
    }),
    ("span call beside a bad well", |a| {
        a.spans_beside(By::SpansCall, |count| count > 0)
    }),
    ("link yes beside a bad well", |a| a.link_beside(Answer::Yes)),
    ("link no beside a bad well", |a| a.link_beside(Answer::No)),
    ("link between clean wells", |a| {
        let apart = |[from, to]: [u8; 2]| a.links(from, to).is_none();
        a.link_beside(Answer::No) && a.ends().is_some_and(apart)
    }),
    ("spans of a bad item", |a| {
        a.by == By::SpansRecord && a.hit(|item, named| item == named)
    }),
    ("spans by a chain", |a| {
        a.by == By::SpansRecord && a.far(|_, _| true)
    }),
    ("span call of a bad item", |a| {
        a.by == By::SpansCall && a.hit(|item, named| item == named)
    }),
    ("span call by a chain", |a| {
        a.by == By::SpansCall && a.far(|_, _| true)
    }),
    ("link, first end's well bad", |a| a.bad_ends([true, false])),
    ("link, second end's well bad", |a| a.bad_ends([false, true])),
    ("link, both bad, first's named", |a| a.named_by_end(0)),
    ("link, both bad, second's named", |a| a.named_by_end(1)),
    ("link within a bad well", |a| {
        a.hit_link(|[from, to], _| a.links(from, to).is_some())
    }),
    ("link to itself in a bad well", |a| {
        a.fact.is_link() && a.hit(|_, _| true)
    }),
    ("joined at another depth", Asked::joined_at_another_depth),
    ("NEVER at another depth", Asked::never_at_another_depth),
    ("NEVER beside the link", Asked::never_beside_the_link),
    ("chain at no common depth", |a| {
        a.far(|item, named| a.at_no_common_depth(item, named))
    }),
    ("joined by another kind", Asked::by_another_kind),
    ("chain of two kinds", Asked::by_two_kinds),
    ("come with a link", |a| a.came_with(Fact::is_link)),
    ("gone with a link", |a| a.gone_with(Fact::is_link)),
    ("kept by another link", Asked::kept_by_another_link),
    ("come with a mark elsewhere", |a| {
        a.came_with(|fact| a.marked_elsewhere(fact))
    }),
    ("gone with a mark elsewhere", |a| {
        a.gone_with(|fact| a.marked_elsewhere(fact))
    }),
    ("chain in a hole", |a| {
        a.outside() == Some(false) && a.far(|_, _| true)
    }),
    ("chain outside the hole", |a| {
        a.outside() == Some(true) && a.far(|_, _| true)
    }),
    ("yes in a hole beside a bad well", |a| {
        a.outside() == Some(false) && a.beside() && a.answer == Answer::Yes
    }),
    ("no outside beside a bad well", |a| {
        a.outside() == Some(true) && a.beside() && a.answer == Answer::No
    }),
    ("256 marks beside a bad well", |a| {
        a.held.marks.len() == MAX_MARKS && a.beside()
    }),
];
