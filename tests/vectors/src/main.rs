//! Writes the test program's script (`stdin`) and what it has to print (`stdout`) into a folder.

mod cases;
mod countings;
mod hole;
mod joined;
mod profile;
mod script;
mod shift;
mod stretches;

use model::terms::REFUSALS;
use script::Script;
use std::path::PathBuf;

const MAX_SCRIPT: usize = 65_536;

/// What the script goes through, in this order; new cases stand behind the old ones.
const CASES: &[fn(&mut Script)] = &[
    cases::patterns,
    cases::example,
    cases::refused_frames,
    cases::refused_bodies,
    cases::short_memory,
    cases::bad_blocks,
    cases::neighbouring_marks,
    cases::ends_of_the_range,
    cases::operators,
    cases::links,
    cases::contradictions,
    cases::full_lists,
    cases::all_depths,
    stretches::operators,
    stretches::beside_each_other,
    stretches::either_kind,
    stretches::refused_bodies,
    stretches::ends_of_the_range,
    stretches::links,
    stretches::bad_blocks,
    stretches::all_ends,
    stretches::full_list,
    cases::the_end,
    countings::setting,
    countings::refused,
    countings::operators,
    countings::widest_gap,
    countings::links,
    countings::contradiction,
    countings::byte_of_the_block,
    countings::poked_counting,
    cases::the_end,
    hole::giving,
    hole::refused,
    hole::operators,
    hole::links,
    hole::marks,
    hole::all_ends,
    hole::contradiction,
    hole::bytes_of_the_block,
    hole::poked_hole,
    cases::the_end,
    joined::chain,
    joined::wells,
    joined::ends_apart,
    joined::either_way,
    joined::loops,
    joined::named,
    joined::one_link,
    joined::other_depths,
    joined::derived,
    joined::all_bad,
    cases::the_end,
    profile::switching,
    profile::refused,
    profile::rules,
    profile::too_late,
    profile::bodies,
    profile::full_list,
    profile::byte_of_the_block,
    profile::poked_profile,
    cases::the_end,
    shift::nothing,
    shift::moving,
    shift::ends_of_the_range,
    shift::all_or_none,
    shift::with_a_hole,
    shift::questions,
    shift::refused,
    cases::the_end,
];

fn build() -> Script {
    let mut script = Script::new();
    CASES.iter().for_each(|case| case(&mut script));
    script
}

fn main() -> std::io::Result<()> {
    let folder = PathBuf::from(std::env::args().nth(1).expect("the folder to write into"));
    let script = build();
    assert!(script.steps.len() <= MAX_SCRIPT, "the script is too long");
    let mut rare = REFUSALS.to_vec();
    rare.retain(|&number| script.refusals[number as usize] < 2);
    assert!(rare.is_empty(), "refusals {rare:?} come up too seldom");
    std::fs::write(folder.join("stdin"), &script.steps)?;
    std::fs::write(folder.join("stdout"), &script.lines)
}
