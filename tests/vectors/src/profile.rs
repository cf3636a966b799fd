//! The print profile at the edges, as steps of the same script.

use crate::cases::{patterns, refill};
use crate::script::{Script, WHOLE};
use model::block::{PROFILE_AT, RULES_AT, RULE_PLACE, SIZE};
use model::frame::{bytes, framed};
use model::service::Lent;
use model::short::*;
use model::terms::*;

const ON: Record = Record::Profile;

/// On, on again, and off by RESET, with nothing held, with the other settings, and with lists. Kind
/// 21 changes its byte; tail, tables and span buffer stay as they are.
pub fn switching(script: &mut Script) {
    patterns(script);
    script.send_all([ON, ON, Record::Reset, ON]);
    script.send_all([counting(2), hole(-5, 70), ON, hole(0, 60), counting(1)]);
    script.send_all([RULE, put(has(0, 1), 5), ON, counting(2), hole(0, 50)]);
    script.send_all([spans(0, EVERY), Record::Reset, spans(0, EVERY)]);
    script.send_all([counting(2), hole(-5, 70), RULE, put(has(0, 1), 5), ON]);
    // The least that is enough, and more records behind.
    script.call(&Lent::EXACT, &bytes(&ON));
    script.send(&Record::Reset);
    script.call(&WHOLE, &[bytes(&ON), bytes(&Record::Reset)].concat());
    script.call(&Lent::EXACT, &[]);
}

/// Kind 21 by every number but 20 that it can be refused with, and what is none: kind 20 without its
/// shift, and other kinds.
fn refused_each(script: &mut Script) {
    let short = Lent {
        links: Lent::EXACT.links - 1,
        ..WHOLE
    };
    script.call(&short, &bytes(&ON));
    script.spoiled(PROFILE_AT, 2, &ON);
    let inputs: [&[u8]; 8] = [
        &[1, 0, 21, 0],
        &[2, 0, 21],
        &[3, 0, 21, 0],
        &framed(21, &[0]),
        &framed(21, &[1, 0]),
        &framed(20, &[]),
        &framed(22, &[]),
        &framed(0x0115, &[]),
    ];
    inputs.into_iter().for_each(|input| {
        script.call(&WHOLE, input);
    });
}

/// The same where it is on, and with a rule outside, for which it is 20 by then.
pub fn refused(script: &mut Script) {
    script.send_all([Record::Reset, put(has(0, 1), 5), ON]);
    refill(script);
    refused_each(script);
    script.send_all([Record::Reset, both(EVERY, EVERY, 2)]);
    refused_each(script);
    script.send_all([ON, ON]);
    script.call(&Lent::EXACT, &bytes(&ON));
}

/// Each sort of rule while it is on, those outside and those in it; then what holds, without marks
/// and beyond them.
pub fn rules(script: &mut Script) {
    script.send_all([Record::Reset, ON]);
    refill(script);
    script.send_all(out_of_profile());
    script.send_all(in_profile());
    script.send_all([in_profile()[0], in_profile()[5]]);
    script.send_all([spans(0, 2), query(has(0, 2), 0), query(link(0, 1, 1), 0)]);
    script.send_all([put_from_to(has(0, 1), 100, 110), put(has(0, 1), 140)]);
    script.send_all([put_from_to(link(2, 0, 4), 90, 120), put(has(4, 1), 95)]);
    let asked = [i64::MIN, 89, 99, 100, 140, 141, i64::MAX];
    script.send_all(asked.map(|depth| query(has(0, 2), depth)));
    script.send_all([89, 90, 120, 121].map(|depth| query(link(2, 1, 4), depth)));
    script.send_all([spans(0, 2), spans(4, 2), spans(2, 2), spans(0, EVERY)]);
}

/// Each sort outside alone before kind 21, and one of them behind a rule and a mark.
pub fn too_late(script: &mut Script) {
    for rule in out_of_profile() {
        script.send_all([Record::Reset, rule, ON]);
    }
    script.send_all([Record::Reset, RULE, put(link(0, 0, 1), 10)]);
    script.send_all([link_rule(whole(BELOW), 0, 1), ON, query(link(0, 1, 1), 11)]);
}

/// 6 and 7 go before 20, off and on.
pub fn bodies(script: &mut Script) {
    for set in [None, Some(ON)] {
        script.send(&Record::Reset);
        script.send_all(set);
        script.send_all([
            label(whole(ABOVE), NEVER, 1),
            label(within(0), EVERY, 64),
            both(EVERY, EVERY, EVERY),
            link_rule(whole(ANYWHERE), 0, 8),
            label(within(0), EVERY, 1),
            label(within(MAX_N + 1), EVERY, 1),
            label(Operator { code: BELOW, n: 1 }, 1, 2),
            link_rule(Operator { code: ABOVE, n: 1 }, 0, 1),
        ]);
    }
}

/// The rule of that number; all differ and are in the profile.
fn rule(number: u8) -> Record {
    both(number % 60, 1 + number / 60, 62)
}

/// With all places taken 20 goes before 11, and what is held is 9.
pub fn full_list(script: &mut Script) {
    script.send(&Record::Reset);
    script.send_all((0..128).map(rule));
    let asked = [
        both(EVERY, EVERY, 62),
        label(whole(ABOVE), 1, 2),
        link_rule(whole(ANYWHERE), 0, 0),
        rule(128),
        rule(127),
    ];
    script.send_all(asked);
    script.send_all([ON, ON]);
    script.send_all(asked);
    // A rule outside poked into the last place: bad with the profile, and without it too late.
    let last = RULES_AT + 127 * RULE_PLACE;
    script.spoiled_all(&[(last + 1, 0), (last + 2, 0)], &ON);
    script.poke(PROFILE_AT, 0);
    script.spoiled_all(&[(last + 1, 0), (last + 2, 0)], &ON);
    script.send_all(asked);
}

/// The record with byte 5 poked to each of these.
fn pokes(script: &mut Script, input: &Record) {
    for value in [0, 1, 2, 128, 255] {
        script.spoiled(PROFILE_AT, value, input);
    }
}

/// Byte 5 on the empty block, with rules in the profile and with one outside: 0 is always a good
/// block, 1 only without the latter, and any other value is none.
pub fn byte_of_the_block(script: &mut Script) {
    script.send(&Record::Reset);
    refill(script);
    pokes(script, &ON);
    script.spoiled(PROFILE_AT, 1, &label(whole(ABOVE), 1, 2));
    script.send_all([both(EVERY, 1, 2), label(whole(BETWEEN), 1, 3)]);
    script.send_all([link_rule(within(3), 0, 1), put(has(0, 1), 7)]);
    pokes(script, &spans(0, 2));
    script.spoiled(PROFILE_AT, 1, &both(EVERY, EVERY, 2));
    poked_rules(script);
    script.send(&label(within(1), EVERY, 2));
    pokes(script, &spans(0, 2));
    for value in [1, 2] {
        script.spoiled(PROFILE_AT, value, &Record::Reset);
        script.poke(PROFILE_AT, value);
        script.call(&WHOLE, &[]);
        script.spans(&WHOLE, 0, 2);
    }
    script.poke(PROFILE_AT, 0);
    script.spoiled(SIZE, 255, &spans(0, 2));
}

/// One of these rules becomes one outside by its left side or by its operator, without the profile
/// and with it.
fn poked_rules(script: &mut Script) {
    let [first, second, third] = [0, 1, 2].map(|place| RULES_AT + place * RULE_PLACE);
    for value in [0, 1] {
        script.poke(PROFILE_AT, value);
        for (at, poked) in [(first + 2, EVERY), (second + 2, EVERY), (second + 1, ABOVE)] {
            script.spoiled(at, poked, &spans(0, 2));
        }
        script.spoiled_all(&[(third + 1, ANYWHERE), (third + 4, 0)], &spans(0, 2));
    }
    script.poke(PROFILE_AT, 0);
}

/// The profile poked into the empty block is as good as switched on.
pub fn poked_profile(script: &mut Script) {
    script.send(&Record::Reset);
    script.poke(PROFILE_AT, 1);
    script.call(&WHOLE, &[]);
    script.send_all([label(whole(BELOW), 1, 2), label(whole(BETWEEN), 1, 2), ON]);
    script.send_all([put(has(0, 1), 5), spans(0, 2), query(has(0, 2), 6)]);
    script.send_all([Record::Reset, label(whole(BELOW), 1, 2), ON]);
}
