//! Costs, against their plain meaning.

use super::cross::{all_plans, compare_plan};
use super::says;
use crate::sample::{all_edges, instance_bytes, Generator};
use crate::*;
use std::collections::BTreeSet;

/// Every plan of tiny sizes, with the ends that it has and all edges. Every cost
/// up to m·k comes; on 3 vertices only one of two agents can move in a step under
/// rule 1, so that they rest from times 2 and 3 on at the latest; on 2 vertices two
/// cannot move under any.
#[test]
fn all_tiny_costs() {
    for (n, k, m, rule, most) in [
        (2, 1, 9, 1, 9),
        (3, 1, 6, 2, 6),
        (4, 1, 4, 1, 4),
        (3, 2, 3, 1, 5),
        (3, 2, 3, 2, 6),
        (4, 2, 2, 1, 4),
        (4, 2, 2, 2, 4),
        (2, 2, 3, 2, 0),
    ] {
        let mut costs = BTreeSet::new();
        for plan in all_plans(n, (m + 1) * k) {
            let instance = instance_bytes(n, &all_edges(n), &plan[..k], &plan[m * k..]);
            let m = m as u64;
            if check_instance(&instance, m, rule) == says(0, 0)
                && compare_plan(&instance, m, rule, &plan)
            {
                costs.insert(plain::cost(&instance, m, &plan));
            }
        }
        assert!(costs.into_iter().eq(0..=most), "{n} {k} {m}");
    }
}

/// Plans with waits before, between and after the moves.
#[test]
fn random_costs() {
    let mut random = Generator::new(19);
    let mut told = costs::Told::default();
    for _ in 0..3000 {
        let n = 1 + random.below(24);
        let k = 1 + random.below(n.min(16));
        let m = random.below(33);
        let percent = random.below(101);
        let rule = random.rule();
        let (instance, plan) = random.waiting_walk(n, k, percent, m, rule);
        assert!(compare_plan(&instance, m as u64, rule, &plan));
        told.add(k, &plan, plain::cost(&instance, m as u64, &plan) as u64);
    }
    assert_eq!(told.missing(), [""; 0]);
}
