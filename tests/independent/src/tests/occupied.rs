//! Agents that enter occupied vertices, against the questions.

use super::questions::refused_plan;
use super::says;
use crate::parts::{enter_occupied, Parts};
use crate::questions::{failing, first_no, Handed, Item, ASKED, NUMBERS};
use crate::sample::{all_edges, instance_bytes, Generator};
use crate::*;
use std::collections::BTreeSet;

/// Compares plan check and encoder with the questions asked one by one; gives
/// the items of 20, 25 and 26, by place.
pub(super) fn compare_occupied(
    instance: &[u8],
    horizon: u64,
    rule: u64,
    plan: &[u8],
) -> (Answer, Vec<Item>) {
    let handed = Handed {
        instance,
        horizon,
        rule,
        clause: None,
        plan,
        entries: &[],
        text: &[],
        lent: usize::from(instance[0]) * plan.len(),
        pruned: false,
        ..Handed::default()
    };
    let answer = check_plan(instance, horizon, rule, plan);
    for numbers in [ASKED[2], ASKED[4]] {
        match first_no(numbers, &handed) {
            Some((number, place)) => assert_eq!(answer, says(number, place)),
            None => assert_eq!(answer.number, 0),
        }
    }
    if answer.number != 0 {
        assert_eq!(refused_plan(instance, horizon, rule, plan), answer);
    }
    let numbers = [20, 25, 26].into_iter();
    let mut items: Vec<Item> = numbers
        .flat_map(|number| {
            let places = failing(number, &handed).into_iter();
            places.map(move |place| (number, place))
        })
        .collect();
    items.sort_by_key(|item| item.1);
    (answer, items)
}

/// Every step of three agents from some rows, on every graph of four vertices.
#[test]
fn all_steps_of_three_agents() {
    let possible = all_edges(4);
    let mut times = [0; NUMBERS];
    for graph in 0..1 << possible.len() {
        let chosen = (0..possible.len()).filter(|j| graph >> j & 1 == 1);
        let edges: Vec<(u8, u8)> = chosen.map(|j| possible[j]).collect();
        for starts in [[0, 1, 2], [3, 1, 0], [2, 3, 1], [1, 0, 3]] {
            let instance = instance_bytes(4, &edges, &starts, &starts);
            for next in 0..64 {
                let next = [next >> 4, next >> 2 & 3, next & 3];
                let (answer, items) = compare_occupied(&instance, 1, 1, &[starts, next].concat());
                times[answer.number as usize] += 1;
                // One item, of one number, for each agent that enters an occupied vertex.
                let enters = |&a: &usize| next[a] != starts[a] && starts.contains(&next[a]);
                let places: Vec<u64> = items.iter().map(|item| item.1).collect();
                let agents = (0..3).filter(enters).map(|a| 3 + a as u64);
                assert_eq!(places, agents.collect::<Vec<_>>());
            }
        }
    }
    for number in [0, 19, 20, 25, 26, 21, 22] {
        assert!(times[number] > 0, "{number} was never answered");
    }
}

/// 2 to 16 agents of which some enter occupied vertices. With every number of
/// agents each of the three comes, and with four or more each of them decides
/// while a higher agent is at fault in each of the other ways.
#[test]
fn crowded_plans_answer_the_first_no() {
    let mut random = Generator::new(29);
    for k in 2..=16 {
        let mut decided = BTreeSet::new();
        let mut times = [0; NUMBERS];
        for i in 0..900 {
            let n = k + 1 + random.below(8);
            let m = 1 + random.below(3);
            let percent = 20 + random.below(81);
            let (instance, plan) = random.walk(n, k, percent, m, 1);
            let parts = Parts::of(&instance);
            let wanted = [20, 25, 26][i % 3];
            let Some(plan) = enter_occupied(&mut random, wanted, &parts, &plan) else {
                continue;
            };
            let (answer, items) = compare_occupied(&instance, m as u64, 1, &plan);
            times[answer.number as usize] += 1;
            // All steps before are valid, and the agents only cross edges there.
            assert!(matches!(answer.number, 20 | 25 | 26));
            assert_eq!(items[0], (answer.number, answer.second));
            let step = |item: &&Item| item.1 / k as u64 == answer.second / k as u64;
            assert!(items.iter().filter(step).any(|item| item.0 == wanted));
            let others = items.iter().filter(step).map(|item| item.0);
            decided.extend(others.map(|other| (answer.number, other)));
        }
        for number in [20, 25, 26] {
            assert!(
                times[number] > 100,
                "{k} agents: {number} came {} times",
                times[number]
            );
            for other in [20, 25, 26] {
                assert!(
                    k < 4 || decided.contains(&(number as u32, other)),
                    "{k} agents: {number} never decided over {other}"
                );
            }
        }
    }
}
