//! Cases with shifts that a run has to meet, each by its name.

use crate::cases::{marked, out_of_range, ruled, Case, DONE};
use crate::hole_seen::of_one_depth;
use model::terms::*;

const R1: Answer = Answer::Refused(1);
const R2: Answer = Answer::Refused(2);
const R3: Answer = Answer::Refused(3);
const R4: Answer = Answer::Refused(4);
const R8: Answer = Answer::Refused(8);
const R9: Answer = Answer::Refused(9);
const R10: Answer = Answer::Refused(10);
const R15: Answer = Answer::Refused(15);
const R16: Answer = Answer::Refused(16);
const R17: Answer = Answer::Refused(17);
const R20: Answer = Answer::Refused(20);
const ABOVE_ALL: i32 = SHALLOWEST - 1;
const BELOW_ALL: i32 = DEEPEST + 1;

pub const SHIFT_CASES: [Case; 87] = [
    ("shift down", |s| {
        marked(&s.shown) && s.shift(DONE, |by| by > 0)
    }),
    ("shift up", |s| {
        marked(&s.shown) && s.shift(DONE, |by| by < 0)
    }),
    ("shift by 0", |s| {
        marked(&s.shown) && s.shift(DONE, |by| by == 0)
    }),
    ("marks shifted", |s| s.no_hole() && s.shifted()),
    ("bare hole shifted", |s| s.bare() && s.shifted()),
    ("marks and hole shifted", |s| s.marked_hole() && s.shifted()),
    ("stretch and point shifted", |s| {
        let points = s.shown.marks.iter().filter(|mark| mark.is_point());
        let count = points.count();
        s.shifted() && count > 0 && count < s.shown.marks.len()
    }),
    ("label and link shifted", |s| {
        let links = s.shown.marks.iter().filter(|mark| mark.fact.is_link());
        let count = links.count();
        s.shifted() && count > 0 && count < s.shown.marks.len()
    }),
    ("nothing shifted", |s| {
        !ruled(&s.shown) && s.nothing(|by| by != 0)
    }),
    ("nothing shifted with rules", |s| {
        ruled(&s.shown) && s.nothing(|by| by != 0)
    }),
    ("nothing shifted by the least number", |s| {
        s.nothing(|by| by == i32::MIN)
    }),
    ("nothing shifted by the greatest number", |s| {
        s.nothing(|by| by == i32::MAX)
    }),
    ("marks to the shallowest depth", |s| {
        s.no_hole() && s.top_to(DONE, SHALLOWEST)
    }),
    ("marks to the deepest depth", |s| {
        s.no_hole() && s.bottom_to(DONE, DEEPEST)
    }),
    ("hole to the shallowest depth", |s| {
        s.marked_hole() && s.top_to(DONE, SHALLOWEST)
    }),
    ("hole to the deepest depth", |s| {
        s.marked_hole() && s.bottom_to(DONE, DEEPEST)
    }),
    ("bare hole to the shallowest depth", |s| {
        s.bare() && s.top_to(DONE, SHALLOWEST)
    }),
    ("bare hole to the deepest depth", |s| {
        s.bare() && s.bottom_to(DONE, DEEPEST)
    }),
    ("stretch to the shallowest depth", |s| {
        let least = s.shown.ends().first().copied();
        s.no_hole() && s.top_to(DONE, SHALLOWEST) && s.stretch_at(|mark| mark.top, least)
    }),
    ("stretch to the deepest depth", |s| {
        let greatest = s.shown.ends().last().copied();
        s.no_hole() && s.bottom_to(DONE, DEEPEST) && s.stretch_at(|mark| mark.bottom, greatest)
    }),
    ("from the shallowest depth to the deepest", |s| {
        s.end_to_end([SHALLOWEST, DEEPEST])
    }),
    ("from the deepest depth to the shallowest", |s| {
        s.end_to_end([DEEPEST, SHALLOWEST])
    }),
    ("shift down across zero", |s| s.across_zero(true)),
    ("shift up across zero", |s| s.across_zero(false)),
    ("mark at the hole's top shifted", |s| {
        s.shifted() && s.hole(|hole| s.shown.ends().contains(&hole.top))
    }),
    ("mark at the hole's bottom shifted", |s| {
        s.shifted() && s.hole(|hole| s.shown.ends().contains(&hole.bottom))
    }),
    ("hole of one depth shifted", |s| {
        s.shifted() && s.hole(of_one_depth)
    }),
    ("256 marks shifted", |s| {
        s.shifted() && s.shown.marks.len() == MAX_MARKS
    }),
    ("96 depths shifted", |s| {
        s.shifted() && s.shown.ends().len() == MAX_DEPTHS
    }),
    ("128 rules and a shift", |s| s.shifted() && s.full()),
    ("shift in the profile", |s| s.shifted() && s.on()),
    ("shift by the new counting", |s| {
        s.shifted() && s.shown.counting == Counting::New
    }),
    ("shift with all settings", |s| {
        s.shifted() && s.on() && s.marked_hole() && s.shown.counting == Counting::New
    }),
    ("marks one above the shallowest", |s| {
        s.no_hole() && s.top_to(R8, ABOVE_ALL)
    }),
    ("marks one below the deepest", |s| {
        s.no_hole() && s.bottom_to(R8, BELOW_ALL)
    }),
    ("hole one above the shallowest", |s| {
        s.marked_hole() && s.top_to(R8, ABOVE_ALL)
    }),
    ("hole one below the deepest", |s| {
        s.marked_hole() && s.bottom_to(R8, BELOW_ALL)
    }),
    ("bare hole one above the shallowest", |s| {
        s.bare() && s.top_to(R8, ABOVE_ALL)
    }),
    ("bare hole one below the deepest", |s| {
        s.bare() && s.bottom_to(R8, BELOW_ALL)
    }),
    ("8 by tops alone", |s| {
        s.kept_by(|_, leave| leave.iter().all(|&[_, bottom]| !bottom))
    }),
    ("8 by bottoms alone", |s| {
        s.kept_by(|_, leave| leave.iter().all(|&[top, _]| !top))
    }),
    ("8 by all marks", |s| {
        s.kept_by(|marks, leave| marks.len() > 2 && leave.iter().all(|&out| out == [true; 2]))
    }),
    ("8 by the first mark alone", |s| {
        s.kept_by_one(|at, _| at == 0)
    }),
    ("8 by the last mark alone", |s| {
        s.kept_by_one(|at, last| at == last)
    }),
    ("8 by a mark between alone", |s| {
        s.kept_by_one(|at, last| at > 0 && at < last)
    }),
    ("8 by labels alone", |s| s.kept_by_sort(false)),
    ("8 by links alone", |s| s.kept_by_sort(true)),
    ("8 by the hole's top alone", |s| {
        s.kept_by_hole([true, false])
    }),
    ("8 by the hole's bottom alone", |s| {
        s.kept_by_hole([false, true])
    }),
    ("8 by the whole hole alone", |s| {
        s.bare() && s.shift(R8, |by| by.unsigned_abs() > 210_000)
    }),
    ("8 by the least number", |s| {
        s.shift(R8, |by| by == i32::MIN)
    }),
    ("8 by the greatest number", |s| {
        s.shift(R8, |by| by == i32::MAX)
    }),
    ("8 with 256 marks", |s| {
        s.kept() && s.shown.marks.len() == MAX_MARKS
    }),
    ("shift refused in the profile", |s| s.kept() && s.on()),
    ("shift refused by the new counting", |s| {
        s.kept() && s.shown.counting == Counting::New
    }),
    ("shift there and back", |s| {
        let back = |by: i32| s.last == Some(Record::Shift(by.wrapping_neg()));
        s.shifted() && s.shift(DONE, back)
    }),
    ("shift behind another", |s| {
        s.shifted() && s.right_after(|_| true)
    }),
    ("8 right after a shift", |s| {
        s.kept() && s.right_after(|_| true)
    }),
    ("yes right after a shift", |s| s.asked_after(Answer::Yes)),
    ("no right after a shift", |s| s.asked_after(Answer::No)),
    ("contradiction right after a shift", |s| {
        s.asked_after(Answer::Contradiction(0))
    }),
    ("yes where it was no", |s| s.turned(Answer::Yes)),
    ("no where it was yes", |s| s.turned(Answer::No)),
    ("spans right after a shift", |s| s.spans_after(|_| true)),
    ("several spans right after a shift", |s| {
        s.spans_after(|numbers| numbers.len() > 2)
    }),
    ("no top right after a shift", |s| {
        s.spans_after(|numbers| numbers.contains(&i32::MIN) && !numbers.contains(&i32::MAX))
    }),
    ("no bottom right after a shift", |s| {
        s.spans_after(|numbers| numbers.contains(&i32::MAX) && !numbers.contains(&i32::MIN))
    }),
    ("spans of the moved hole", |s| {
        s.spans_after(|numbers| s.hole(|hole| numbers == hole.ends()))
    }),
    ("take at the new depth", |s| {
        s.take(DONE, |mark| !s.was_held(mark)) && s.right_after(|_| true)
    }),
    ("take at the old depth", |s| {
        s.take(R10, |mark| s.was_held(mark))
    }),
    ("put at the old depth", |s| {
        s.put(DONE, |mark| s.was_held(mark))
    }),
    ("9 at the new depth", |s| {
        s.put(R9, |mark| !s.was_held(mark)) && s.right_after(|_| true)
    }),
    ("16 by the moved hole", |s| s.put_by_moved_hole(R16, true)),
    ("put by the moved hole", |s| {
        s.put_by_moved_hole(DONE, false)
    }),
    ("17 right after a shift", |s| {
        s.dug(R17, |_| true) && s.right_after(|_| true)
    }),
    ("hole replaced right after a shift", |s| {
        s.bare() && s.dug(DONE, |_| true) && s.right_after(|_| true)
    }),
    ("15 right after a shift", |s| {
        s.named(R15, |_| true) && s.right_after(|_| true)
    }),
    ("20 right after a shift", |s| {
        s.learned(R20, |_| true) && s.right_after(|_| true)
    }),
    ("reset right after a shift", |s| {
        s.reset() && s.right_after(|_| true)
    }),
    ("short shift", |s| s.refused_length(20, 5)),
    ("long shift", |s| s.refused_length(20, 7)),
    ("cut shift", |s| {
        s.kind == 20 && s.length == 6 && s.answer == R3
    }),
    ("shift with too little memory", |s| s.shift(R1, |_| true)),
    ("shift on a bad block", |s| s.shift(R2, |_| true)),
    ("shift that would mend a block", |s| {
        let bad = s.shown.movable().into_iter().any(out_of_range);
        bad && s.shift(R2, |by| s.shown.shifted(by).is_some())
    }),
    ("kind 19 is none", |s| s.kind == 19 && s.answer == R4),
    ("kind 22 is none", |s| s.kind == 22 && s.answer == R4),
];
