//! Cases with the print profile that a run has to meet, each by its name.

use crate::cases::{marked, ruled, Case, Seen, DONE};
use crate::profile_seen::{
    above, below, beyond, every_by, every_label, every_twice, far_label, far_link_rule, is_both,
    is_label_by, is_link_rule_by, outside,
};
use model::terms::*;

const R3: Answer = Answer::Refused(3);
const R6: Answer = Answer::Refused(6);
const R7: Answer = Answer::Refused(7);
const R9: Answer = Answer::Refused(9);
const R11: Answer = Answer::Refused(11);
const R15: Answer = Answer::Refused(15);
const R16: Answer = Answer::Refused(16);
const R17: Answer = Answer::Refused(17);
const R20: Answer = Answer::Refused(20);

pub const PROFILE_CASES: [Case; 88] = [
    ("LABEL WITHIN in the profile", |s| {
        s.learned_on(DONE, |rule| is_label_by(rule, WITHIN))
    }),
    ("LABEL BETWEEN in the profile", |s| {
        s.learned_on(DONE, |rule| is_label_by(rule, BETWEEN))
    }),
    ("BOTH in the profile", |s| {
        s.learned_on(DONE, |rule| is_both(rule, [false, false]))
    }),
    ("EVERY on the left of BOTH", |s| {
        s.learned_on(DONE, |rule| is_both(rule, [true, false]))
    }),
    ("EVERY on the right of BOTH", |s| {
        s.learned_on(DONE, |rule| is_both(rule, [false, true]))
    }),
    ("LINKRULE WITHIN in the profile", |s| {
        s.learned_on(DONE, |rule| is_link_rule_by(rule, WITHIN))
    }),
    ("LINKRULE BETWEEN in the profile", |s| {
        s.learned_on(DONE, |rule| is_link_rule_by(rule, BETWEEN))
    }),
    ("VIA in the profile", |s| {
        s.learned_on(
            DONE,
            |rule| matches!(rule, Rule::Via { a, .. } if a != EVERY),
        )
    }),
    ("VIA with EVERY", |s| {
        s.learned_on(DONE, |rule| matches!(rule, Rule::Via { a: EVERY, .. }))
    }),
    ("20 for LABEL ABOVE", |s| {
        s.learned_on(R20, |rule| is_label_by(rule, ABOVE))
    }),
    ("20 for LABEL BELOW", |s| {
        s.learned_on(R20, |rule| is_label_by(rule, BELOW))
    }),
    ("20 for LABEL ANYWHERE", |s| {
        s.learned_on(R20, |rule| is_label_by(rule, ANYWHERE))
    }),
    ("20 for EVERY by WITHIN 1", |s| {
        s.learned_on(R20, |rule| every_by(rule, |op| op.n == 1))
    }),
    ("20 for EVERY by another WITHIN", |s| {
        s.learned_on(R20, |rule| every_by(rule, |op| op.n > 1))
    }),
    ("20 for EVERY by BETWEEN", |s| {
        s.learned_on(R20, |rule| every_by(rule, |op| op.code == BETWEEN))
    }),
    ("20 for EVERY by what goes beyond", |s| {
        s.learned_on(R20, |rule| every_by(rule, |op| op.code > BETWEEN))
    }),
    ("20 for EVERY twice", |s| s.learned_on(R20, every_twice)),
    ("20 for LINKRULE ABOVE", |s| {
        s.learned_on(R20, |rule| is_link_rule_by(rule, ABOVE))
    }),
    ("20 for LINKRULE BELOW", |s| {
        s.learned_on(R20, |rule| is_link_rule_by(rule, BELOW))
    }),
    ("20 for LINKRULE ANYWHERE", |s| {
        s.learned_on(R20, |rule| is_link_rule_by(rule, ANYWHERE))
    }),
    ("20 for what concludes NEVER", |s| {
        let never = |rule| {
            matches!(
                rule,
                Rule::Label { b: NEVER, .. } | Rule::Both { c: NEVER, .. }
            )
        };
        s.learned_on(R20, never)
    }),
    ("LABEL outside while off", |s| s.learned_off(far_label)),
    ("EVERY outside while off", |s| s.learned_off(every_label)),
    ("BOTH outside while off", |s| s.learned_off(every_twice)),
    ("LINKRULE outside while off", |s| {
        s.learned_off(far_link_rule)
    }),
    ("9 for a rule outside while off", |s| {
        !s.on() && s.learned(R9, outside)
    }),
    ("6 for a rule outside", |s| s.learned_on(R6, outside)),
    ("7 for a rule outside", |s| s.learned_on(R7, outside)),
    ("9 in the profile", |s| s.learned_on(R9, |_| true)),
    ("11 in the profile", |s| s.learned_on(R11, |_| true)),
    ("20 with 128 rules", |s| {
        s.full() && s.learned_on(R20, |_| true)
    }),
    ("11 for a rule outside while off", |s| {
        !s.on() && s.learned(R11, outside)
    }),
    ("profile before rules", |s| {
        !ruled(&s.shown) && s.switched_on()
    }),
    ("profile behind rules", |s| {
        ruled(&s.shown) && s.switched_on()
    }),
    ("profile behind marks", |s| {
        marked(&s.shown) && s.switched_on()
    }),
    ("profile behind 128 rules", |s| s.full() && s.switched_on()),
    ("profile on again", |s| s.on() && s.switched(DONE)),
    ("profile on again with lists", |s| {
        s.on() && s.switched(DONE) && ruled(&s.shown) && marked(&s.shown)
    }),
    ("20 for the profile by LABEL", |s| s.kept_off_by(far_label)),
    ("20 for the profile by EVERY", |s| {
        s.kept_off_by(every_label)
    }),
    ("20 for the profile by BOTH", |s| s.kept_off_by(every_twice)),
    ("20 for the profile by LINKRULE", |s| {
        s.kept_off_by(far_link_rule)
    }),
    ("20 for the profile by the first rule", |s| {
        s.kept_off_at(|rules| rules[0])
    }),
    ("20 for the profile by the last rule", |s| {
        s.kept_off_at(|rules| rules[rules.len() - 1])
    }),
    ("20 for the profile with 128 rules", |s| {
        s.full() && s.switched(R20)
    }),
    ("20 for the profile with a mark", |s| {
        marked(&s.shown) && s.switched(R20)
    }),
    ("profile cleared by reset", |s| s.reset() && s.on()),
    ("profile behind reset", |s| {
        s.behind_reset() && s.switched(DONE)
    }),
    ("rule outside behind reset", |s| {
        s.behind_reset() && s.learned_off(outside)
    }),
    ("profile of length 1", |s| {
        s.kind == 21 && s.length == 1 && s.answer == R3
    }),
    ("long profile", |s| s.refused_length(21, 3)),
    ("block with the profile", Seen::good_profile),
    ("block with rules outside", |s| {
        s.good_block() && !s.on() && !s.shown.in_profile()
    }),
    ("block with byte 5 at 2", |s| {
        s.bad_profile(|byte| byte == 2, |held| held.in_profile())
    }),
    ("block with another byte 5", |s| {
        s.bad_profile(|byte| byte > 2, |held| held.in_profile())
    }),
    ("block with LABEL outside", |s| s.bad_rules(far_label)),
    ("block with EVERY outside", |s| s.bad_rules(every_label)),
    ("block with BOTH outside", |s| s.bad_rules(every_twice)),
    ("block with LINKRULE outside", |s| {
        s.bad_rules(far_link_rule)
    }),
    ("no label above the marks", |s| {
        s.on() && s.nothing_at(above, false)
    }),
    ("no label below the marks", |s| {
        s.on() && s.nothing_at(below, false)
    }),
    ("no link above the marks", |s| {
        s.on() && s.nothing_at(above, true)
    }),
    ("no link below the marks", |s| {
        s.on() && s.nothing_at(below, true)
    }),
    ("no label beyond while off", |s| {
        !s.on() && s.nothing_at(beyond, false)
    }),
    ("no link beyond while off", |s| {
        !s.on() && s.nothing_at(beyond, true)
    }),
    ("label at the shallowest mark", |s| {
        s.derived_at(|[least, _], depth| depth == least, false)
    }),
    ("label at the deepest mark", |s| {
        s.derived_at(|[_, greatest], depth| depth == greatest, false)
    }),
    ("link at the shallowest mark", |s| {
        s.derived_at(|[least, _], depth| depth == least, true)
    }),
    ("link at the deepest mark", |s| {
        s.derived_at(|[_, greatest], depth| depth == greatest, true)
    }),
    ("label beyond by a rule outside", |s| {
        s.something_at(beyond, false)
    }),
    ("link beyond by a rule outside", |s| {
        s.something_at(beyond, true)
    }),
    ("EVERY beyond the marks", Seen::every_beyond),
    ("contradiction beyond the marks", Seen::contradiction_beyond),
    ("no label without marks", |s| {
        s.on() && s.unmarked_query(Answer::No, false)
    }),
    ("no link without marks", |s| {
        s.on() && s.unmarked_query(Answer::No, true)
    }),
    ("label without marks by a rule outside", |s| {
        s.unmarked_query(Answer::Yes, false)
    }),
    ("no spans without marks", |s| s.on() && s.no_spans()),
    ("spans from first mark to last", |s| {
        s.on() && s.spans_to_margins()
    }),
    ("profile and hole", |s| s.answered() && s.hole(|_| true)),
    ("profile and new counting", |s| {
        s.answered() && s.shown.counting == Counting::New
    }),
    ("profile with a hole in force", |s| {
        s.switched_on() && s.hole(|_| true)
    }),
    ("profile with the new counting in force", |s| {
        s.switched_on() && s.shown.counting == Counting::New
    }),
    ("counting set in the profile", |s| {
        s.on() && s.named(DONE, |_| true)
    }),
    ("15 in the profile", |s| s.on() && s.named(R15, |_| true)),
    ("hole given in the profile", |s| {
        s.on() && s.dug(DONE, |_| true)
    }),
    ("17 in the profile", |s| s.on() && s.dug(R17, |_| true)),
    ("16 in the profile", |s| s.on() && s.put(R16, |_| true)),
    ("all settings cleared by reset", |s| {
        s.reset() && s.on() && s.hole(|_| true) && s.shown.counting == Counting::New
    }),
];
