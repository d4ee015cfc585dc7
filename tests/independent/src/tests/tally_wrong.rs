//! Programs that are wrong about the tally.

use crate::calls::say;
use crate::histories::{some_submitted, Submitted};
use crate::questions::{Handed, TALLY};
use crate::records::{full, open};
use crate::sample::Generator;
use crate::worked_tally::{counted, dearest, misses, moves, plans};
use crate::wrong_tally::Told;
use crate::Tally;

/// Gives the record after the call.
fn add(told: &mut Told, plan: &Submitted, before: Tally) -> Tally {
    let handed = Handed {
        instance: &plan.instance,
        horizon: plan.m,
        rule: plan.rule,
        plan: &plan.plan,
        tally: Some(before),
        ..Handed::default()
    };
    let said = say(TALLY, &plan.instance, &handed, vec![], vec![]);
    told.add(TALLY, &handed, &said, |tally| *tally);
    said.tally.unwrap()
}

/// Records by hand, full ones, and one history tell every wrong program from the right
/// one.
#[test]
fn told_apart() {
    let mut told = Told::default();
    for (plan, before, after) in counted() {
        assert_eq!(add(&mut told, &plan, before), after);
    }
    for before in full().into_iter().chain(open()) {
        for plan in [moves(), misses(), dearest()] {
            add(&mut told, &plan, before);
        }
    }
    for (plan, _) in plans() {
        add(&mut told, &plan, full()[0]);
    }
    // Numbers whose low bytes are others.
    for (m, rule) in [(257, 1), (1, 257), (1, 258), (2, 1), (1, 2)] {
        let plan = Submitted { m, rule, ..moves() };
        add(&mut told, &plan, Tally::default());
    }
    let mut random = Generator::new(1305);
    let mut tally = Tally::default();
    for _ in 0..400 {
        tally = add(&mut told, &some_submitted(&mut random), tally);
    }
    assert_eq!(told.missing(), [""; 0]);
    assert!(told.programs() > 250);
}

/// What the request's wrong programs do, each told by one call.
#[test]
fn told_at_once() {
    let one = |plan: Submitted, before: Tally| {
        let mut told = Told::default();
        add(&mut told, &plan, before);
        let times = told.times();
        move |name: &str| {
            times
                .iter()
                .any(|&(wrong, times)| wrong == name && times > 0)
        }
    };
    let empty = Tally::default();
    assert!(one(moves(), empty)("least: what it held counts at first"));
    assert!(one(moves(), empty)("least: 0 after the first pass"));
    assert!(one(misses(), empty)("refusal: 1 added to the sum"));
    assert!(one(misses(), full()[0])("34: counted under 34"));
    assert!(one(misses(), full()[0])("34: the total without passed"));
    // Of the numbers of one name, all must be told.
    assert!(!one(misses(), empty)("refusal: under the number above"));
}
