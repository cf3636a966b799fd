//! What a stream is like: how wide its names and depths are, and how often things are wrong.

use crate::plans::*;
use dice::Dice;

/// Chances are percentages for each field, record or call.
#[derive(Default)]
pub struct Plan {
    pub calls: u64,
    pub items: u8,
    pub labels: u8,
    pub kinds: u8,
    pub top: i64,
    pub width: i64,
    pub rules: u64,
    pub marks: u64,
    pub depths: u64,
    /// Marks and questions about links.
    pub linked: u64,
    /// Ends of marks at a depth outside the usual few.
    pub fresh: u64,
    /// Marks that are stretches.
    pub stretches: u64,
    /// Stretches with the top deeper than the bottom.
    pub reversed: u64,
    /// Marks whose ends go by those of a held one.
    pub near: u64,
    /// Marks by the kinds 13 to 16 although both ends are equal.
    pub wide: u64,
    /// Streams that start with the new counting.
    pub new: u64,
    /// Records that set a counting, or reset so that one can be set.
    pub switches: u64,
    /// Records about two marks as far apart as a held WITHIN reaches, or one more or less.
    pub apart: u64,
    /// Streams that start with a hole.
    pub hole: u64,
    /// Records that give a hole, or take a mark or reset so that one can be given.
    pub digs: u64,
    /// Records about the hole's ends and what lies beside them.
    pub brinks: u64,
    /// Streams that start with rules of the profile, most of them with the profile on.
    pub profile: u64,
    /// Records that switch the profile on, rules at its edges, and a reset now and then.
    pub prints: u64,
    /// Questions at the outermost marked depths and beyond.
    pub margins: u64,
    /// Records that shift all depths, or leave less that a shift moves.
    pub shifts: u64,
    /// Records right after a shift about what lies elsewhere now.
    pub behind: u64,
    /// Questions that are asked again with the section moved.
    pub alike: u64,
    /// Calls that ask for a charge.
    pub charges: u64,
    /// Charges of all that a section can cost, which is laid at the start of such a stream.
    pub most: u64,
    /// Stretches about as long as some whole metres.
    pub metres: u64,
    /// Records about wells: what joins items, parts them, makes one bad, and questions.
    pub pads: u64,
    /// Links of the chain that a pad starts with.
    pub chain: usize,
    pub never: u64,
    pub edge: u64,
    pub damage: u64,
    pub spoil: u64,
    pub short: u64,
}

/// A small valid stream without pads; the others differ from it.
fn small(dice: &mut Dice) -> Plan {
    Plan {
        calls: 40,
        items: dice.pick(&[2, 3, 4, 16]),
        labels: dice.pick(&[4, 6, 10]),
        kinds: dice.pick(&[1, 2, 3]),
        top: dice.between(-300, 300),
        width: dice.pick(&[12, 60, 400]),
        rules: dice.below(16),
        marks: dice.below(24),
        depths: 2 + dice.below(10),
        linked: 40,
        fresh: 10,
        stretches: dice.pick(&[20, 50, 80]),
        reversed: 4,
        near: 25,
        wide: dice.pick(&[0, 30, 100]),
        new: 50,
        switches: 2,
        apart: 8,
        hole: 40,
        digs: 2,
        brinks: 8,
        profile: 20,
        prints: 2,
        margins: 4,
        shifts: 3,
        behind: 30,
        alike: 12,
        charges: 6,
        metres: 4,
        never: dice.pick(&[0, 0, 0, 4, 12]),
        edge: 2,
        damage: 1,
        short: 1,
        ..Plan::default()
    }
}

pub fn plan(dice: &mut Dice) -> Plan {
    let plan = small(dice);
    match dice.below(65) {
        0..=1 => plan,
        2 => points(plan),
        3 | 4 => Plan {
            stretches: 90,
            near: 80,
            ..plan
        },
        5..=7 => deep(dice, plan),
        8 => long(plan),
        9..=11 => Plan {
            edge: 20,
            reversed: 25,
            ..plan
        },
        12 | 13 => Plan { damage: 45, ..plan },
        14 | 15 => Plan { spoil: 50, ..plan },
        16 => Plan { short: 30, ..plan },
        17 => widest(plan),
        18 => faulty(plan),
        19 => switching(dice, plan),
        20..=23 => counted(plan),
        24 => digging(dice, plan),
        25..=28 => brinks(dice, plan),
        29 | 30 => crowded(dice, plan),
        31..=35 => pads(dice, plan),
        36..=45 => combined(dice, plan),
        46..=48 => printing(dice, plan),
        49..=51 => printed(dice, plan),
        52..=56 => shifting(dice, plan),
        57..=63 => billing(dice, plan),
        _ => full(dice, plan),
    }
}
