//! The specification's worked example and its cases at the edges.

use model::depths::Depths;
use model::frame::bytes;
use model::listing::{answers_to as answers, last_answer as last, listing, MAX_INPUT};
use model::short::*;
use model::terms::Counting::{New, Old};
use model::terms::*;

fn set(depths: &[i64]) -> Depths {
    let single = depths.iter().map(|&depth| Depths::one(depth));
    single.fold(Depths::default(), |all, one| all.union(&one))
}

#[test]
fn worked_example_listing() {
    let input: Vec<u8> = worked_example().iter().flat_map(bytes).collect();
    let expected = "1 done\n2 done\n3 done\n4 done\n5 done\n6 done\n7 done\n8 yes\n9 no\n\
                    10 spans 1 104:109\n11 refused 9\n";
    assert_eq!(listing(&input), expected);
}

#[test]
fn operators_on_one_set() {
    let m = set(&[-3, -2, 0, 4]);
    let upper = set(&[-3, -2, -1, 0, 4]);
    assert_eq!(m.under(within(3), Old), upper);
    assert_eq!(m.under(within(2), Old), m);
    assert_eq!(m.under(within(2), New), upper);
    for counting in [Old, New] {
        assert_eq!(m.under(within(1), counting), m);
        assert_eq!(m.under(whole(BETWEEN), counting), Depths::run(-3, 4));
        assert_eq!(m.under(whole(ABOVE), counting).runs(), [(i64::MIN, 4)]);
        assert_eq!(m.under(whole(BELOW), counting).runs(), [(-3, i64::MAX)]);
        assert_eq!(m.under(whole(ANYWHERE), counting), Depths::all());
    }
}

#[test]
fn nothing_gives_nothing() {
    let given = |code| [Old, New].map(|by| Depths::default().under(Operator { code, n: 5 }, by));
    let mut all = (WITHIN..=ANYWHERE).flat_map(given);
    assert!(all.all(|depths| depths.is_empty()));
}

#[test]
fn distance_is_less_than_n_by_the_old_counting() {
    let m = set(&[104, 123]);
    assert_eq!(m.under(within(20), Old), Depths::run(104, 123));
    assert_eq!(m.under(within(19), Old), m);
}

#[test]
fn distance_is_at_most_n_by_the_new_counting() {
    let m = set(&[104, 123]);
    assert_eq!(m.under(within(19), New), Depths::run(104, 123));
    assert_eq!(m.under(within(18), New), m);
}

#[test]
fn nothing_held() {
    let every = query(has(0, EVERY), i64::MIN);
    assert_eq!(answers(&[every, query(has(0, 1), 0)]), ["yes", "no"]);
    let asked = [EVERY, 1, NEVER].map(|label| spans(15, label));
    assert_eq!(answers(&asked), ["spans 1 *:*", "spans 0", "spans 0"]);
}

#[test]
fn every_item_is_contradictory() {
    let asked = [query(has(0, 5), 0)];
    let said = last(&[&never_everywhere()[..], &asked].concat());
    assert_eq!(said, "contradiction 0");
}

#[test]
fn via_joins_at_one_depth() {
    let (rule, tie) = (via(0, 2, 3), put(link(0, 0, 1), 10));
    assert_eq!(
        last(&[rule, tie, put(has(1, 2), 10), query(has(0, 3), 10)]),
        "yes"
    );
    let apart = [
        rule,
        tie,
        put(has(1, 2), 11),
        query(has(0, 3), 10),
        query(has(0, 3), 11),
    ];
    assert_eq!(answers(&apart)[3..], ["no", "no"]);
}

#[test]
fn ends_of_the_range() {
    let records = [
        put(has(0, 1), DEEPEST),
        put(has(0, 1), DEEPEST + 1),
        query(has(0, 1), 200_001),
        put(has(0, 1), SHALLOWEST),
        put(has(0, 1), SHALLOWEST - 1),
        query(has(0, 1), -10_001),
    ];
    let expected = ["done", "refused 8", "no", "done", "refused 8", "no"];
    assert_eq!(answers(&records), expected);
}

#[test]
fn neighbouring_pieces_are_one_span() {
    let records = [put(has(3, 7), 5), put(has(3, 7), 6), spans(3, 7)];
    assert_eq!(last(&records), "spans 1 5:6");
}

#[test]
fn input_limits() {
    assert_eq!(listing(&[]), "");
    assert_eq!(listing(&vec![0; MAX_INPUT]), "1 refused 3\n");
    assert_eq!(listing(&vec![0; MAX_INPUT + 1]), "input too long\n");
}
