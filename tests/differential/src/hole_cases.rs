//! Cases with holes that a run has to meet, each by its name.

use crate::cases::{marked, out_of_range, ruled, Case, Seen, DONE};
use crate::hole_seen::{above, below, bottom, of_one_depth, outside, past, top};
use model::tables::PIECES;
use model::terms::*;

const R6: Answer = Answer::Refused(6);
const R8: Answer = Answer::Refused(8);
const R9: Answer = Answer::Refused(9);
const R10: Answer = Answer::Refused(10);
const R11: Answer = Answer::Refused(11);
const R12: Answer = Answer::Refused(12);
const R14: Answer = Answer::Refused(14);
const R16: Answer = Answer::Refused(16);
const R17: Answer = Answer::Refused(17);
const YES: Answer = Answer::Yes;
const NO: Answer = Answer::No;

pub const HOLE_CASES: [Case; 93] = [
    ("hole given", |s| {
        s.shown.hole.is_none() && s.dug(DONE, |_| true)
    }),
    ("hole replaced", |s| {
        s.hole(|_| true) && s.dug(DONE, |new| !s.is_dug(new))
    }),
    ("hole given again", |s| s.dug(DONE, |new| s.is_dug(new))),
    ("hole with rules held", |s| {
        ruled(&s.shown) && s.dug(DONE, |_| true)
    }),
    ("hole of one depth", |s| s.dug(DONE, of_one_depth)),
    ("hole from 0 to 0", |s| {
        s.dug(DONE, |new| new.ends() == [0, 0])
    }),
    ("hole from the shallowest", |s| {
        s.dug(DONE, |new| new.top == SHALLOWEST && new.bottom < DEEPEST)
    }),
    ("hole to the deepest", |s| {
        s.dug(DONE, |new| new.top > SHALLOWEST && new.bottom == DEEPEST)
    }),
    ("hole over the whole range", |s| {
        s.dug(DONE, |new| new.ends() == [SHALLOWEST, DEEPEST])
    }),
    ("hole kept without its last mark", |s| {
        s.shown.marks.len() == 1 && s.take_in(DONE, |_, _| true)
    }),
    ("hole cleared by reset", |s| {
        s.record == Some(Record::Reset) && s.answer == DONE && s.hole(|_| true)
    }),
    ("17 for the hole in force", |s| {
        s.dug(R17, |new| s.is_dug(new))
    }),
    ("17 for another hole", |s| {
        s.hole(|_| true) && s.dug(R17, |new| !s.is_dug(new))
    }),
    ("17 for a first hole", |s| {
        s.shown.hole.is_none() && s.dug(R17, |_| true)
    }),
    ("hole 8 by its top", |s| {
        s.dug(R8, |new| out_of_range(new.top) && !out_of_range(new.bottom))
    }),
    ("hole 8 by its bottom", |s| {
        s.dug(R8, |new| !out_of_range(new.top) && out_of_range(new.bottom))
    }),
    ("hole 8 and reversed", |s| {
        s.dug(R8, |new| new.top > new.bottom)
    }),
    ("hole 8 with marks", |s| {
        marked(&s.shown) && s.dug(R8, |_| true)
    }),
    ("hole 14 without marks", |s| {
        !marked(&s.shown) && s.dug(R14, |_| true)
    }),
    ("hole 14 with marks", |s| {
        marked(&s.shown) && s.dug(R14, |_| true)
    }),
    ("short hole", |s| s.refused_length(18, 9)),
    ("long hole", |s| s.refused_length(18, 11)),
    ("16 by the top alone", |s| {
        s.put_in(R16, |hole, mark| past(hole, mark) == [true, false])
    }),
    ("16 by the bottom alone", |s| {
        s.put_in(R16, |hole, mark| past(hole, mark) == [false, true])
    }),
    ("16 by both", |s| {
        s.put_in(R16, |hole, mark| past(hole, mark) == [true, true])
    }),
    ("16 one above the top", |s| {
        s.put_in(R16, |hole, mark| {
            mark.top == hole.top - 1 && mark.bottom <= hole.bottom
        })
    }),
    ("16 one below the bottom", |s| {
        s.put_in(R16, |hole, mark| {
            mark.top >= hole.top && mark.bottom == hole.bottom + 1
        })
    }),
    ("16 wholly above", |s| {
        s.put_in(R16, |hole, mark| mark.bottom < hole.top)
    }),
    ("16 wholly below", |s| {
        s.put_in(R16, |hole, mark| mark.top > hole.bottom)
    }),
    ("16 for a point", |s| {
        s.put_in(R16, |_, mark| mark.is_point())
    }),
    ("16 for a link", |s| {
        s.put_in(R16, |_, mark| mark.fact.is_link())
    }),
    ("16 with 256 marks", |s| {
        s.shown.marks.len() == MAX_MARKS && s.put_in(R16, |_, _| true)
    }),
    ("16 with 96 depths", |s| {
        s.shown.ends().len() == MAX_DEPTHS && s.put_in(R16, |_, _| true)
    }),
    ("6 outside the hole", |s| s.put_in(R6, outside)),
    ("8 outside the hole", |s| s.put_in(R8, outside)),
    ("14 outside the hole", |s| s.put_in(R14, outside)),
    ("14 wholly above", |s| {
        s.put_in(R14, |hole, mark| mark.top < hole.top)
    }),
    ("14 wholly below", |s| {
        s.put_in(R14, |hole, mark| mark.bottom > hole.bottom)
    }),
    ("9 in a hole", |s| s.put_in(R9, |_, _| true)),
    ("11 in a hole", |s| s.put_in(R11, |_, _| true)),
    ("12 in a hole", |s| s.put_in(R12, |_, _| true)),
    ("96th depth beside the hole's ends", Seen::last_depth),
    ("mark from the hole's top", |s| {
        s.put_in(DONE, |hole, mark| {
            mark.top == hole.top && mark.bottom < hole.bottom
        })
    }),
    ("mark to the hole's bottom", |s| {
        s.put_in(DONE, |hole, mark| {
            mark.top > hole.top && mark.bottom == hole.bottom
        })
    }),
    ("mark over the hole", |s| {
        s.put_in(DONE, |hole, mark| {
            hole.top < hole.bottom && mark.ends() == hole.ends()
        })
    }),
    ("mark on a hole of one depth", |s| {
        s.put_in(DONE, |hole, _| of_one_depth(hole))
    }),
    ("take outside the hole", |s| s.take_in(R10, outside)),
    ("take from one above the top", |s| {
        s.take_in(R10, |hole, mark| mark.top == hole.top - 1)
    }),
    ("reversed take outside the hole", |s| {
        s.take_in(R14, outside)
    }),
    ("EVERY at the hole's top", |s| s.every_at(YES, top)),
    ("EVERY at the hole's bottom", |s| s.every_at(YES, bottom)),
    ("EVERY one above", |s| s.every_at(NO, above)),
    ("EVERY one below", |s| s.every_at(NO, below)),
    ("EVERY far above", |s| s.every_far(|asked| asked < 0)),
    ("EVERY far below", |s| s.every_far(|asked| asked > 0)),
    ("EVERY where 32 bits lie inside", Seen::every_cut),
    ("ABOVE at the hole's top", |s| {
        s.operator_at(ABOVE, YES, top)
    }),
    ("ABOVE one above", |s| s.operator_at(ABOVE, NO, above)),
    ("BELOW at the hole's bottom", |s| {
        s.operator_at(BELOW, YES, bottom)
    }),
    ("BELOW one below", |s| s.operator_at(BELOW, NO, below)),
    ("ANYWHERE at the hole's top", |s| {
        s.operator_at(ANYWHERE, YES, top)
    }),
    ("ANYWHERE at the hole's bottom", |s| {
        s.operator_at(ANYWHERE, YES, bottom)
    }),
    ("ANYWHERE one above", |s| s.operator_at(ANYWHERE, NO, above)),
    ("ANYWHERE one below", |s| s.operator_at(ANYWHERE, NO, below)),
    ("BETWEEN over the hole", Seen::between_over),
    ("link at the hole's top", |s| {
        s.link_at(YES, top, [ABOVE, ANYWHERE])
    }),
    ("link at the hole's bottom", |s| {
        s.link_at(YES, bottom, [BELOW, ANYWHERE])
    }),
    ("link one above", |s| {
        s.link_at(NO, above, [ABOVE, ANYWHERE])
    }),
    ("link one below", |s| {
        s.link_at(NO, below, [BELOW, ANYWHERE])
    }),
    ("contradiction above the hole", |s| {
        s.contradiction_at(|hole, asked| asked < top(hole))
    }),
    ("contradiction below the hole", |s| {
        s.contradiction_at(|hole, asked| asked > bottom(hole))
    }),
    ("spans from the hole's top", Seen::spans_from_top),
    ("spans to the hole's bottom", Seen::spans_to_bottom),
    ("spans at both ends", Seen::spans_at_both_ends),
    ("spans of EVERY in a hole", |s| {
        s.spans(|hole, label, numbers| label == EVERY && numbers == hole.ends())
    }),
    ("spans of one depth's hole", |s| {
        s.spans(|hole, _, _| of_one_depth(hole))
    }),
    ("one piece", |s| {
        s.laid_out(|_, pieces, ends| pieces == 1 && ends == 0)
    }),
    ("one piece that is marked", |s| {
        s.laid_out(|_, pieces, ends| pieces == 1 && ends == 1)
    }),
    ("pieces from a mark at the top", |s| {
        s.laid_out(|hole, _, _| hole.top < hole.bottom && !s.unmarked(hole.top))
    }),
    ("pieces to a mark at the bottom", |s| {
        s.laid_out(|hole, _, _| hole.top < hole.bottom && !s.unmarked(hole.bottom))
    }),
    ("two pieces", |s| {
        s.laid_out(|_, pieces, ends| pieces == 2 && ends == 1)
    }),
    ("193 pieces in a hole", |s| {
        s.laid_out(|_, pieces, _| pieces == PIECES)
    }),
    ("block with a hole", Seen::good_hole),
    ("block with another byte 6", |s| {
        s.bad_byte(|there| there > 1)
    }),
    ("block with a byte 7", Seen::byte_behind),
    ("block with ends and no hole", Seen::ends_alone),
    ("block with a reversed hole", |s| {
        !marked(&s.shown) && s.bad_hole(|hole| hole.top > hole.bottom)
    }),
    ("block with the hole's top out of range", |s| {
        s.bad_hole(|hole| out_of_range(hole.top) && !out_of_range(hole.bottom))
    }),
    ("block with the hole's bottom out of range", |s| {
        s.bad_hole(|hole| !out_of_range(hole.top) && out_of_range(hole.bottom))
    }),
    ("block with a mark one above the hole", |s| {
        s.bad_mark_outside([true, false])
    }),
    ("block with a mark one below the hole", |s| {
        s.bad_mark_outside([false, true])
    }),
    ("block with the hole 0 to 0", |s| {
        s.good_block() && s.hole(|hole| hole.ends() == [0, 0])
    }),
    ("hole and new counting", |s| {
        s.shown.counting == Counting::New && s.laid_out(|_, _, ends| ends > 1)
    }),
];
