//! In which combination of hole, counting, stretches, joined items and profile each question was
//! answered: what is right with any one of them may still go wrong where they meet.

use crate::tally::listed;
use model::held::Held;
use model::tables::PIECES;
use model::terms::*;

/// The answers that are counted, by their numbers. In a hole nothing is open, so that open is left
/// out.
const ANSWERS: [(u32, &str); 5] = [
    (1, "yes"),
    (2, "no"),
    (3, "contradiction"),
    (4, "spans"),
    (7, "total"),
];

/// What is combined: its name where it is not so, and where it is.
const PARTS: [[&str; 2]; 5] = [
    ["no hole", "hole"],
    ["old", "new"],
    ["points", "stretches"],
    ["alone", "joined"],
    ["no profile", "profile"],
];

const COMBINATIONS: usize = 1 << PARTS.len();

/// How often each answer came up in each combination.
#[derive(Default)]
pub struct Combined([[u64; ANSWERS.len()]; COMBINATIONS]);

/// A rule by which the counting can decide something: WITHIN 1 gives the same by either.
fn counting_matters(rule: &Rule) -> bool {
    let far = |op: Operator| op.code == WITHIN && op.n > 1;
    rule.operator().is_some_and(far)
}

/// Whether the link table has a link from the one to the other.
fn leads(links: &[u8], from: u8, to: u8) -> bool {
    let start = (usize::from(from) * usize::from(ITEMS) + usize::from(to)) * PIECES;
    links[start..start + PIECES].iter().any(|&entry| entry != 0)
}

/// Whether the item is joined to another, which takes a link between it and some other.
fn joined(links: &[u8], item: u8) -> bool {
    let mut others = (0..ITEMS).filter(|&other| other != item);
    others.any(|other| leads(links, item, other) || leads(links, other, item))
}

/// The name of a combination, whose bits are its parts, the first the highest.
fn name(combination: usize) -> String {
    let places = (0..PARTS.len()).rev();
    let named = PARTS.iter().zip(places);
    let names: Vec<_> = named
        .map(|(part, place)| part[combination >> place & 1])
        .collect();
    names.join(", ")
}

impl Combined {
    /// Counts an answered question about these items by what is held and the link table laid out
    /// for it. Questions with no rule by which the counting can decide are left out.
    pub fn see(&mut self, held: &Held, links: &[u8], items: [u8; 2], answer: u32) {
        let place = ANSWERS.iter().position(|&(number, _)| number == answer);
        let matters = held.rules.iter().any(counting_matters);
        let Some(place) = place.filter(|_| matters) else {
            return;
        };
        let parts = [
            held.hole.is_some(),
            held.counting == Counting::New,
            held.marks.iter().any(|mark| !mark.is_point()),
            items.iter().any(|&item| joined(links, item)),
            held.profile,
        ];
        let combination = parts
            .iter()
            .fold(0, |all, &part| 2 * all + usize::from(part));
        self.0[combination][place] += 1;
    }

    pub fn print(&self) {
        for (combination, counts) in self.0.into_iter().enumerate() {
            let names = ANSWERS.into_iter().map(|(_, name)| name);
            let counted = listed(names.zip(counts));
            println!("{}: {counted}", name(combination));
        }
    }

    /// Each combination with each answer, and how often it came up.
    pub fn counts(&self) -> impl Iterator<Item = (String, u64)> + '_ {
        let named = move |combination| {
            let counts = ANSWERS.into_iter().zip(self.0[combination]);
            counts.map(move |((_, answer), n)| (format!("{}: {answer}", name(combination)), n))
        };
        (0..COMBINATIONS).flat_map(named)
    }
}
