//! What has to come up among the questions that are asked with a section as it is and moved, each by
//! its name: for sections that are shifted, and for those that are mirrored.

use crate::alike::Alike;
use model::held::Held;
use model::moved::Move;
use model::terms::*;

/// The two ways, as the names of the cases say them.
pub const WAYS: [&str; 2] = ["shifted", "mirrored"];

pub type AlikeCase = (&'static str, fn(&Alike) -> bool);

/// The place of the way that a section went; none where it stayed.
pub fn place_of(way: Move) -> Option<usize> {
    match way {
        Move::Shift(0) => None,
        Move::Shift(_) => Some(0),
        Move::Mirror => Some(1),
    }
}

impl Alike {
    /// A question about a label or a link, with the answer of that number.
    fn said(&self, answer: Answer, link: bool) -> bool {
        let asked = matches!(self.question, Record::Query(fact, _) if fact.is_link() == link);
        asked && self.answer.0 == answer.numbers().0
    }

    /// Asked so far away that the depth doesn't fit 32 bits.
    fn far(&self) -> bool {
        matches!(self.question, Record::Query(_, depth) if i32::try_from(depth).is_err())
    }

    /// A held rule by an operator that is another one on the reversed line.
    fn turns(&self) -> bool {
        let turns = |op: Operator| [ABOVE, BELOW].contains(&op.code);
        let mut rules = self.held.rules.iter();
        rules.any(|rule| rule.operator().is_some_and(turns))
    }

    /// A section that lies at an end of the range, before or after.
    fn at_an_end(&self) -> bool {
        let at_end = |held: &Held| {
            let ends = held.movable();
            ends.first() == Some(&SHALLOWEST) || ends.last() == Some(&DEEPEST)
        };
        at_end(&self.held)
            || self
                .held
                .moved(self.way)
                .is_some_and(|moved| at_end(&moved))
    }
}

pub const ALIKE_CASES: [AlikeCase; 21] = [
    ("yes", |a| a.said(Answer::Yes, false)),
    ("no", |a| a.said(Answer::No, false)),
    ("contradiction", |a| a.said(Answer::Contradiction(0), false)),
    ("link yes", |a| a.said(Answer::Yes, true)),
    ("link no", |a| a.said(Answer::No, true)),
    ("link contradiction", |a| {
        a.said(Answer::Contradiction(0), true)
    }),
    ("no spans", |a| a.answer == Answer::Spans(0).numbers()),
    ("one span", |a| a.numbers.len() == 2),
    ("several spans", |a| a.numbers.len() > 2),
    ("no top", |a| a.numbers.contains(&i32::MIN)),
    ("no bottom", |a| a.numbers.contains(&i32::MAX)),
    ("a top and no bottom", |a| {
        a.numbers.contains(&i32::MAX) && !a.numbers.contains(&i32::MIN)
    }),
    ("a bottom and no top", |a| {
        a.numbers.contains(&i32::MIN) && !a.numbers.contains(&i32::MAX)
    }),
    ("yes far away", |a| a.far() && a.said(Answer::Yes, false)),
    ("stretches", |a| {
        a.held.marks.iter().any(|mark| !mark.is_point())
    }),
    ("hole", |a| a.held.hole.is_some()),
    ("profile", |a| a.held.profile),
    ("new counting", |a| a.held.counting == Counting::New),
    ("ABOVE or BELOW", Alike::turns),
    ("nothing to move", |a| a.held.movable().is_empty()),
    ("end of the range", Alike::at_an_end),
];
