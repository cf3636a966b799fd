//! Generated full sections, without a hole: 128 rules, 256 marks, at most 96 marked depths. One set has points alone, in
//! the other about half of the marks are stretches.

use dice::Dice;
use model::held::Held;
use model::short::{self, both, has, link, link_rule, put_from_to, via, whole, within};
use model::terms::*;

/// Of each set.
pub const SECTIONS: u64 = 100;

#[derive(Clone, Copy, PartialEq)]
pub enum Set {
    Points,
    Stretches,
}

impl Set {
    pub const ALL: [Set; 2] = [Set::Points, Set::Stretches];

    pub fn name(self) -> &'static str {
        match self {
            Set::Points => "points",
            Set::Stretches => "stretches",
        }
    }

    pub fn from_name(name: &str) -> Option<Set> {
        Set::ALL.into_iter().find(|set| set.name() == name)
    }

    pub fn sections(self) -> impl Iterator<Item = Held> {
        (1..=SECTIONS).map(move |seed| self.generate(seed))
    }

    pub fn generate(self, seed: u64) -> Held {
        let mut dice = Dice::new(seed);
        let rules = rules(&mut dice);
        let marks = marks(&mut dice, self, seed.is_multiple_of(5));
        let mut held = Held::default();
        for record in rules.iter().chain(&marks) {
            held.accept(record);
        }
        held
    }
}

/// Depths and distances go by steps of 10 centimetres, so that some marks are exactly a distance apart.
const STEP: u32 = 10;

const LABEL_MARKS: usize = 160;
const LINK_MARKS: usize = 96;
const LINKED_PAIRS: usize = 20;

/// How many marked depths further down a stretch ends at most.
const LONGEST: i64 = 4;

/// How many rules of each kind a section has, in the order of the list.
const LABEL_RULES: usize = 56;
const BOTH_RULES: usize = 32;
const LINK_RULES: usize = 14;
const VIA_RULES: usize = 24;
const NEVER_RULES: usize = 2;

/// No rule concludes it, and few sections have marks of it: what meets it is a contradiction.
const FORBIDDEN: u8 = NEVER - 1;

/// Adds `count` different values to the list.
fn extend<T: PartialEq>(list: &mut Vec<T>, count: usize, mut draw: impl FnMut() -> T) {
    let end = list.len() + count;
    while list.len() < end {
        let value = draw();
        if !list.contains(&value) {
            list.push(value);
        }
    }
}

/// A name from `first` to `last`, both included.
fn name(dice: &mut Dice, first: u8, last: u8) -> u8 {
    dice.between(first.into(), last.into()) as u8
}

fn label(dice: &mut Dice) -> u8 {
    name(dice, 1, FORBIDDEN - 1)
}

fn kind(dice: &mut Dice) -> u8 {
    name(dice, 0, KINDS - 1)
}

fn item(dice: &mut Dice) -> u8 {
    name(dice, 0, ITEMS - 1)
}

/// Up to `most` steps.
fn distance(dice: &mut Dice, most: i64) -> u32 {
    STEP * dice.between(1, most) as u32
}

/// Mostly WITHIN some metres: with many wide operators all labels would soon be everywhere.
fn operator(dice: &mut Dice) -> Operator {
    match dice.below(100) {
        0..=74 => within(distance(dice, 150)),
        75..=92 => whole(BETWEEN),
        93..=95 => whole(ABOVE),
        96..=98 => whole(BELOW),
        _ => whole(ANYWHERE),
    }
}

fn rules(dice: &mut Dice) -> Vec<Record> {
    let mut list = Vec::new();
    extend(&mut list, LABEL_RULES, || {
        short::label(operator(dice), label(dice), label(dice))
    });
    extend(&mut list, BOTH_RULES, || {
        both(label(dice), label(dice), label(dice))
    });
    extend(&mut list, LINK_RULES, || {
        link_rule(operator(dice), kind(dice), kind(dice))
    });
    extend(&mut list, VIA_RULES, || {
        via(kind(dice), label(dice), label(dice))
    });
    extend(&mut list, NEVER_RULES, || {
        both(label(dice), FORBIDDEN, NEVER)
    });
    list
}

/// Depths that rise by 10 to 400 centimetres.
fn depths(dice: &mut Dice) -> Vec<i32> {
    let start = dice.between(0, 100_000) as i32;
    (0..MAX_DEPTHS)
        .scan(start, |depth, _| {
            *depth += distance(dice, 40) as i32;
            Some(*depth)
        })
        .collect()
}

/// A depth twice, or in the set with stretches one of the next few below it.
fn ends(dice: &mut Dice, set: Set, depths: &[i32]) -> (i32, i32) {
    let top = dice.below(depths.len() as u64) as usize;
    let steps = match set == Set::Stretches && dice.percent(50) {
        true => dice.between(1, LONGEST) as usize,
        false => 0,
    };
    (depths[top], depths[(top + steps).min(depths.len() - 1)])
}

/// Marks of labels, some of them forbidden where that is asked for, and of links.
fn marks(dice: &mut Dice, set: Set, forbidden: bool) -> Vec<Record> {
    let depths = depths(dice);
    let last = FORBIDDEN - u8::from(!forbidden);
    let mut pairs = Vec::new();
    extend(&mut pairs, LINKED_PAIRS, || (item(dice), item(dice)));
    let mut list = Vec::new();
    extend(&mut list, LABEL_MARKS, || {
        let fact = has(item(dice), name(dice, 1, last));
        let (top, bottom) = ends(dice, set, &depths);
        put_from_to(fact, top, bottom)
    });
    extend(&mut list, LINK_MARKS, || {
        let (from, to) = dice.pick(&pairs);
        let fact = link(from, kind(dice), to);
        let (top, bottom) = ends(dice, set, &depths);
        put_from_to(fact, top, bottom)
    });
    list
}
