//! Holding and reversing a plan, from request S-11.

use super::cross::compare_plan;
use super::{says, RULES};
use crate::parts::Parts;
use crate::reversing::{exchanged, held, reversed, with_all_goals};
use crate::sample::{instance_bytes, path_edges, Generator};
use crate::worked_reversing::{worked, Checked};
use crate::wrong_reversing::Told;
use crate::*;
use std::cmp::Ordering;

fn agents(instance: &[u8]) -> usize {
    usize::from(instance[1])
}

/// The check's answer. Where the plan passes it is encoded, and decoded again.
pub(super) fn there_and_back(instance: &[u8], m: u64, rule: u64, plan: &[u8]) -> Answer {
    let answer = check_plan(instance, m, rule, plan);
    let count = usize::from(instance[0]) * plan.len();
    let mut entries = vec![7; count];
    let encoded = encode(instance, m, rule, plan, &mut entries);
    if answer.number != 0 {
        assert_eq!(encoded, answer);
        return answer;
    }
    assert_eq!(encoded, says(0, count as u64));
    let mut decoded = vec![7; plan.len()];
    let back = decode(instance, m, rule, &entries, &mut decoded);
    assert_eq!((back.number, &decoded[..]), (0, plan));
    answer
}

/// A plan that passes with this cost does so when held, at the same cost. Where all have
/// a goal it does when reversed too, and both go back to what they were. Gives the
/// reversed plan's cost.
pub(super) fn holds_and_reverses(
    instance: &[u8],
    m: u64,
    rule: u64,
    plan: &[u8],
    cost: u64,
    ask: impl Fn(&[u8], u64, u64, &[u8]) -> Answer,
) -> Option<u64> {
    let k = agents(instance);
    let longer = held(k, plan);
    let expected = if m < 32 { says(0, cost) } else { says(10, 0) };
    assert_eq!(ask(instance, m + 1, rule, &longer), expected, "{plan:?}");
    assert_eq!(longer.len(), plan.len() + k);
    let other = exchanged(instance);
    assert_eq!(exchanged(&other), instance);
    let back = reversed(k, plan);
    assert_eq!(reversed(k, &back), plan);
    let answer = ask(&other, m, rule, &back);
    let parts = Parts::of(instance);
    match parts.free().first() {
        Some(a) => {
            let offset = 4 + 2 * parts.edges.len() + a;
            assert_eq!(answer, says(8, offset as u64));
            None
        }
        None => {
            assert_eq!(check_instance(&other, m, rule), says(0, 0));
            assert_eq!(answer.number, 0, "{plan:?}");
            Some(answer.second)
        }
    }
}

#[test]
fn by_hand() {
    for worked in worked() {
        let Checked {
            instance, m, plan, ..
        } = &worked.plan;
        let k = agents(instance);
        assert_eq!(held(k, plan), worked.held.plan);
        assert_eq!(worked.held.instance, *instance);
        assert_eq!(worked.held.m, m + 1);
        assert_eq!(reversed(k, plan), worked.reversed.plan);
        assert_eq!(exchanged(instance), worked.reversed.instance);
        assert_eq!(worked.reversed.m, *m);
        for (rule, at) in RULES.into_iter().zip(0..) {
            for checked in [&worked.plan, &worked.held, &worked.reversed] {
                let (number, second) = checked.answers[at];
                let answer = there_and_back(&checked.instance, checked.m, rule, &checked.plan);
                assert_eq!(answer, says(number, second), "{:?}", checked.plan);
            }
            if let (0, cost) = worked.plan.answers[at] {
                let back = holds_and_reverses(instance, *m, rule, plan, cost, there_and_back);
                let expected = worked.reversed.answers[at];
                assert_eq!(back, (expected.0 == 0).then_some(expected.1));
            }
        }
    }
}

/// How often it happens by hand that the reversed plan costs less, the same and more.
#[test]
fn costs_by_hand() {
    let mut times = [0; 3];
    for worked in worked() {
        let (plan, back) = (worked.plan.answers[1], worked.reversed.answers[1]);
        if plan.0 == 0 && back.0 == 0 {
            let at = match back.1.cmp(&plan.1) {
                Ordering::Less => 0,
                Ordering::Equal => 1,
                Ordering::Greater => 2,
            };
            times[at] += 1;
        }
    }
    assert!(times.iter().all(|&times| times > 0), "{times:?}");
}

/// The bytes of an instance and of its exchange, and the valuations of a file of two
/// that is held and reversed.
#[test]
fn bytes_and_entries() {
    let instance = instance_bytes(3, &path_edges(3), &[0, 1], &[1, 2]);
    assert_eq!(instance, [3, 2, 2, 0, 0, 1, 1, 2, 0, 1, 1, 2]);
    let other = exchanged(&instance);
    assert_eq!(other, [3, 2, 2, 0, 0, 1, 1, 2, 1, 2, 0, 1]);
    let mut entries = [7; 18];
    let answer = encode(&instance, 2, 2, &[0, 1, 1, 2, 1, 2], &mut entries);
    assert_eq!(answer, says(0, 18));
    // Agent 0 is at 0, 1, 1, and agent 1 at 1, 2, 2: the row comes at the end of each.
    let right = [
        1, -2, -3, -4, 5, -6, -7, 8, -9, -10, 11, -12, -13, -14, 15, -16, -17, 18,
    ];
    assert_eq!(entries, right);
    let mut entries = [7; 12];
    let answer = encode(&other, 1, 2, &[1, 2, 0, 1], &mut entries);
    assert_eq!(answer, says(0, 12));
    let right = [-1, 2, -3, 4, -5, -6, -7, -8, 9, -10, 11, -12];
    assert_eq!(entries, right);
}

/// A walk at this horizon, and its instance.
fn drawn(g: &mut Generator, m: usize, rule: u64) -> (Vec<u8>, Vec<u8>) {
    let most = [6, 12, 24, 64][g.below(4)];
    let n = 1 + g.below(most);
    let k = 1 + g.below(n.min(16));
    let percent = [5, 20, 50, 100][g.below(4)];
    match g.below(2) {
        0 => g.walk(n, k, percent, m, rule),
        _ => g.waiting_walk(n, k, percent, m, rule),
    }
}

/// Agents that are not in one place all the time.
fn moving(k: usize, plan: &[u8]) -> u64 {
    let moves = |a: usize| plan[a..].iter().step_by(k).any(|&v| v != plan[a]);
    (0..k).filter(|&a| moves(a)).count() as u64
}

#[test]
fn random_plans() {
    let mut g = Generator::new(1100);
    // Reversed plans that cost other, and plans of free agents.
    let (mut other_cost, mut free) = (0, 0);
    for (m, rule) in (0..=32).flat_map(|m| RULES.map(|rule| (m, rule))) {
        for turn in 0..24 {
            let (instance, plan) = drawn(&mut g, m, rule);
            let m = m as u64;
            let k = agents(&instance);
            // Decoding takes long.
            let ask = match turn {
                0..4 if plan.len() < 100 => there_and_back,
                _ => check_plan,
            };
            let answer = ask(&instance, m, rule, &plan);
            assert_eq!(answer.number, 0);
            let cost = answer.second;
            let back = holds_and_reverses(&instance, m, rule, &plan, cost, ask);
            free += usize::from(back.is_none());
            let bound = with_all_goals(&instance, &plan);
            let back = holds_and_reverses(&bound, m, rule, &plan, cost, ask)
                .expect("all agents have goals");
            other_cost += usize::from(back != cost);
            // By the plain meaning too.
            let exchange = exchanged(&bound);
            assert!(compare_plan(&exchange, m, rule, &reversed(k, &plan)));
            assert_eq!(floor(&exchange), floor(&bound));
            let [there, again] = [&bound, &exchange].map(|it| formula_size(it, m, rule));
            assert_eq!(there, again);
            if m < 32 {
                let longer = held(k, &plan);
                assert!(compare_plan(&instance, m + 1, rule, &longer));
                // Reversed, who moves waits a step more before.
                let answer = check_plan(&exchange, m + 1, rule, &reversed(k, &longer));
                assert_eq!(answer, says(0, back + moving(k, &plan)));
            }
        }
    }
    assert!(other_cost > 300 && free > 300, "{other_cost} {free}");
}

/// What fails does so when held, with the same number and place; only where the last
/// row is at fault, the place is a row further. Reversed it fails too.
#[test]
fn plans_that_fail() {
    let mut g = Generator::new(1101);
    let mut seen = [[0; 32]; 2];
    for round in 0..20_000 {
        let rule = RULES[round % 2];
        let n = 1 + g.below(6);
        let k = 1 + g.below(n.min(4));
        let m = g.below(5);
        let (instance, mut plan) = g.walk(n, k, 60, m, rule);
        for _ in 0..g.below(3) {
            let (at, from) = (g.below(plan.len()), g.below(plan.len()));
            match g.below(4) {
                0 => plan[at] = g.below(n + 1) as u8,
                1 => plan.swap(at, from),
                2 => plan[at] = plan[from],
                _ => {
                    let row = at / k * k;
                    plan.swap(row + g.below(k), row + g.below(k));
                }
            }
        }
        let m = m as u64;
        let answer = check_plan(&instance, m, rule, &plan);
        let mut later = answer;
        later.second += if answer.number == 22 { k as u64 } else { 0 };
        assert_eq!(check_plan(&instance, m + 1, rule, &held(k, &plan)), later);
        if Parts::of(&instance).free().is_empty() {
            let (other, back) = (exchanged(&instance), reversed(k, &plan));
            let passes = answer.number == 0;
            let back = check_plan(&other, m, rule, &back);
            assert_eq!(back.number == 0, passes, "{plan:?}");
            seen[1][back.number as usize] += 1;
        }
        seen[0][answer.number as usize] += 1;
    }
    for seen in seen {
        for number in [0, 17, 18, 19, 20, 21, 22, 25, 26] {
            assert!(seen[number] > 0, "{number}");
        }
    }
}

/// What wrong programs make is told by the plan check, in the plans worked out by hand
/// and in drawn ones of each rule.
#[test]
fn wrong_programs() {
    let check = |instance: &[u8], m: u64, rule: u64, plan: &[u8]| {
        let answer = check_plan(instance, m, rule, plan);
        (answer.number, answer.second)
    };
    for (rule, at) in RULES.into_iter().zip(0..) {
        let mut told = Told::default();
        for Checked {
            instance,
            m,
            plan,
            answers,
        } in worked().into_iter().map(|worked| worked.plan)
        {
            if let (0, cost) = answers[at] {
                told.add((&instance, m, rule), &plan, cost, u64::MAX, check);
            }
        }
        assert_eq!(told.missing(), [""; 0], "by hand, rule {rule}");
        let mut told = Told::default();
        let mut g = Generator::new(1102);
        for _ in 0..200 {
            let m = g.below(9);
            let (instance, plan) = drawn(&mut g, m, rule);
            let given = (&instance[..], m as u64, rule);
            let cost = check_plan(&instance, m as u64, rule, &plan).second;
            told.add(given, &plan, cost, u64::MAX, check);
        }
        assert_eq!(told.missing(), [""; 0], "drawn, rule {rule}");
    }
}

/// A plan in which all stay tells only programs that make a plan of another length.
#[test]
fn plans_that_tell_little() {
    let check = |instance: &[u8], m: u64, rule: u64, plan: &[u8]| {
        let answer = check_plan(instance, m, rule, plan);
        (answer.number, answer.second)
    };
    let instance = instance_bytes(3, &path_edges(3), &[1], &[1]);
    let mut told = Told::default();
    told.add((&instance, 2, 1), &[1, 1, 1], 0, u64::MAX, check);
    let times: Vec<(&str, u64)> = told.times().filter(|told| told.1 > 0).collect();
    let right = [
        ("held: nothing added", 1),
        ("reversed: the last row left out", 1),
    ];
    assert_eq!(times, right);
}
