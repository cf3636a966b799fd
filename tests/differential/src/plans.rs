//! Kinds of streams, each of which differs from a small one in what it is about.

use crate::plan::Plan;
use dice::Dice;

/// Both lists at or near their limits.
pub fn full(dice: &mut Dice, plan: Plan) -> Plan {
    Plan {
        calls: 16,
        items: dice.pick(&[4, 16]),
        labels: dice.pick(&[20, 63]),
        kinds: dice.pick(&[3, 8]),
        width: dice.pick(&[400, 3_000]),
        rules: dice.pick(&[30, 127, 128]),
        marks: dice.pick(&[110, 200, 255, 256]),
        depths: dice.pick(&[60, 94, 95, 96, 96]),
        profile: 40,
        prints: dice.pick(&[2, 30]),
        never: dice.pick(&[0, 0, 1]),
        edge: 3,
        ..plan
    }
}

/// All depths taken but one or two, with few rules and room for marks.
pub fn deep(dice: &mut Dice, plan: Plan) -> Plan {
    Plan {
        width: dice.pick(&[200, 2_000]),
        marks: dice.between(95, 120) as u64,
        depths: dice.pick(&[94, 95, 96]),
        fresh: dice.pick(&[30, 70]),
        spoil: 8,
        ..plan
    }
}

/// Marks over the whole range.
pub fn widest(plan: Plan) -> Plan {
    Plan {
        top: -10_000,
        width: 210_001,
        ..plan
    }
}

/// Everything is wrong now and then.
pub fn faulty(plan: Plan) -> Plan {
    Plan {
        edge: 6,
        damage: 10,
        spoil: 10,
        short: 10,
        ..plan
    }
}

/// Points by the old kinds and the old counting alone, without a hole, the profile and shifts.
pub fn points(plan: Plan) -> Plan {
    Plan {
        stretches: 0,
        reversed: 0,
        near: 0,
        wide: 0,
        new: 0,
        switches: 0,
        hole: 0,
        digs: 0,
        profile: 0,
        prints: 0,
        shifts: 0,
        ..plan
    }
}

/// A long life from the empty block on.
pub fn long(plan: Plan) -> Plan {
    Plan {
        calls: 300,
        rules: 0,
        marks: 0,
        new: 0,
        hole: 0,
        profile: 0,
        ..plan
    }
}

/// Few rules, so that the counting can be changed, and many a record that tries to.
pub fn switching(dice: &mut Dice, plan: Plan) -> Plan {
    Plan {
        calls: 80,
        rules: dice.below(3),
        switches: 40,
        edge: dice.pick(&[2, 10]),
        damage: dice.pick(&[1, 20]),
        ..plan
    }
}

/// Few names and marks, so that a rule meets the marks that are asked about.
fn few(plan: Plan) -> Plan {
    Plan {
        items: 2,
        labels: 4,
        kinds: 1,
        marks: 1 + plan.marks / 4,
        ..plan
    }
}

/// The distance between two marks decides most questions.
pub fn counted(plan: Plan) -> Plan {
    Plan {
        rules: 1 + plan.rules / 4,
        apart: 70,
        ..few(plan)
    }
}

/// Few marks, so that the hole can be changed, and many a record that tries to.
pub fn digging(dice: &mut Dice, plan: Plan) -> Plan {
    Plan {
        calls: 80,
        marks: dice.below(3),
        digs: 40,
        reversed: dice.pick(&[4, 25]),
        edge: dice.pick(&[2, 20]),
        damage: dice.pick(&[1, 20]),
        ..plan
    }
}

/// A hole whose ends decide most questions and marks.
pub fn brinks(dice: &mut Dice, plan: Plan) -> Plan {
    Plan {
        rules: 2 + plan.rules / 2,
        hole: 100,
        brinks: 70,
        reversed: dice.pick(&[4, 25]),
        edge: dice.pick(&[0, 2, 10]),
        ..few(plan)
    }
}

/// A hole full of marks, or of marked depths, with few rules.
pub fn crowded(dice: &mut Dice, plan: Plan) -> Plan {
    Plan {
        items: 16,
        labels: 20,
        rules: plan.rules / 4,
        // Depths that far apart are no neighbours, so that all 193 pieces come up.
        width: dice.pick(&[200, 150_000, 150_000]),
        marks: dice.pick(&[120, 255, 256]),
        depths: dice.pick(&[40, 95, 96, 96]),
        hole: 100,
        brinks: 50,
        ..plan
    }
}

/// Few rules, or all places taken, and many a record about the profile.
pub fn printing(dice: &mut Dice, plan: Plan) -> Plan {
    let (rules, labels) = dice.pick(&[(0, 6), (1, 6), (2, 10), (3, 10), (128, 40), (128, 40)]);
    Plan {
        calls: 80,
        rules,
        labels,
        profile: 60,
        prints: 50,
        edge: dice.pick(&[2, 10]),
        damage: dice.pick(&[1, 20, 40]),
        ..plan
    }
}

/// Rules of the profile, few marks or none, and questions at the outermost of them and beyond.
pub fn printed(dice: &mut Dice, plan: Plan) -> Plan {
    let plan = few(plan);
    Plan {
        kinds: 2,
        linked: 50,
        rules: 2 + dice.below(10),
        marks: dice.pick(&[0, 1, plan.marks, plan.marks]),
        never: dice.pick(&[0, 0, 8]),
        profile: 80,
        prints: 3,
        margins: 60,
        ..plan
    }
}

/// Few depths, so that one of them leaves the range first, or all places taken, and many a shift.
pub fn shifting(dice: &mut Dice, plan: Plan) -> Plan {
    let (rules, marks) = dice.pick(&[(0, 0), (3, 0), (2, 1), (4, 3), (5, 4), (5, 6), (8, 12)]);
    let usual = Plan {
        calls: 60,
        linked: 50,
        rules,
        marks,
        profile: 30,
        never: dice.pick(&[0, 0, 10]),
        damage: dice.pick(&[1, 10]),
        spoil: dice.pick(&[0, 0, 30]),
        shifts: 45,
        behind: 60,
        alike: 30,
        ..few(plan)
    };
    match dice.below(10) {
        0 => Plan {
            calls: 20,
            items: 16,
            labels: 40,
            rules: dice.pick(&[5, 128]),
            marks: 256,
            depths: dice.pick(&[40, 96]),
            width: 400,
            ..usual
        },
        _ => usual,
    }
}

/// Few labels with spans of about whole metres, and many a charge; now and then over the whole
/// range, of many spans, of all that a section can cost, or with wells of which some are bad.
pub fn billing(dice: &mut Dice, plan: Plan) -> Plan {
    let some = Plan {
        calls: 50,
        width: dice.pick(&[400, 3_000, 9_000]),
        rules: dice.pick(&[0, 2, 4, 8]),
        marks: 1 + dice.below(9),
        never: dice.pick(&[0, 0, 8]),
        linked: 25,
        stretches: 70,
        metres: 75,
        ..few(plan)
    };
    let plan = match dice.below(12) {
        0 => widest(some),
        1 => crowd(some),
        2 => Plan {
            spoil: 40,
            short: 30,
            ..some
        },
        3 | 4 => wells(dice, some),
        5 => Plan {
            calls: 20,
            most: 30,
            ..some
        },
        _ => some,
    };
    Plan {
        apart: 30,
        shifts: 8,
        alike: 50,
        charges: 60,
        ..plan
    }
}

/// Many short spans of one label.
fn crowd(plan: Plan) -> Plan {
    Plan {
        items: 1,
        labels: 2,
        marks: 90,
        depths: 80,
        width: 3_000,
        linked: 5,
        stretches: 15,
        metres: 5,
        ..plan
    }
}

/// Several wells in a section, with few rules, so that some are bad and others are not.
fn wells(dice: &mut Dice, plan: Plan) -> Plan {
    Plan {
        calls: 60,
        items: dice.pick(&[6, 10, 16, 16]),
        kinds: dice.pick(&[1, 2, 3, 8]),
        rules: dice.below(4),
        marks: dice.below(18),
        linked: dice.pick(&[15, 40]),
        pads: 75,
        chain: dice.pick(&[0, 2, 4, 8]),
        never: 0,
        ..plan
    }
}

/// The same, now and then as a single chain, or with all places taken.
pub fn pads(dice: &mut Dice, plan: Plan) -> Plan {
    let plan = wells(dice, plan);
    match dice.below(8) {
        // Nothing but one chain through all items.
        0..=2 => Plan {
            marks: 0,
            chain: 15,
            reversed: 0,
            hole: 0,
            ..plan
        },
        // All places taken, with few links and few bad items.
        3 => Plan {
            calls: 20,
            items: 16,
            labels: 60,
            marks: 256,
            depths: 40,
            width: 400,
            linked: 2,
            chain: 0,
            ..plan
        },
        _ => plan,
    }
}

/// Wells with points alone as often as with stretches, in a hole as often as not, with rules of the
/// profile as often as not, and with rules enough that the counting matters: each combination comes
/// up. The old counting does elsewhere.
pub fn combined(dice: &mut Dice, plan: Plan) -> Plan {
    let stretches = dice.pick(&[0, 60]);
    Plan {
        rules: 6 + dice.below(8),
        stretches,
        near: plan.near.min(stretches),
        new: 65,
        hole: 50,
        profile: 60,
        charges: 12,
        switches: 0,
        digs: 0,
        ..wells(dice, plan)
    }
}
