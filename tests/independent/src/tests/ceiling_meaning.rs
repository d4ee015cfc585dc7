//! The formula with a ceiling has a satisfying valuation exactly where a plan passes that
//! costs at most c.

use super::ceiling::compare_words;
use super::{says, RULES};
use crate::parts::Parts;
use crate::sample::{all_edges, instance_bytes};
use crate::*;

/// Truth values by variable number; place 0 is not used.
type Values = Vec<Option<bool>>;

fn value(values: &Values, literal: i32) -> Option<bool> {
    let value = values[literal.unsigned_abs() as usize];
    value.map(|holds| holds == (literal > 0))
}

/// Sets what clauses of one open literal force; false at a conflict.
fn propagate(clauses: &[Vec<i32>], values: &mut Values) -> bool {
    loop {
        let mut changed = false;
        for clause in clauses {
            if clause.iter().any(|&x| value(values, x) == Some(true)) {
                continue;
            }
            let mut open = clause.iter().filter(|&&x| value(values, x).is_none());
            match (open.next(), open.next()) {
                (None, _) => return false,
                (Some(&literal), None) => {
                    values[literal.unsigned_abs() as usize] = Some(literal > 0);
                    changed = true;
                }
                _ => {}
            }
        }
        if !changed {
            return true;
        }
    }
}

/// A valuation that satisfies the clauses, if there is one.
fn solved(clauses: &[Vec<i32>], mut values: Values) -> Option<Vec<i32>> {
    if !propagate(clauses, &mut values) {
        return None;
    }
    let Some(open) = (1..values.len()).find(|&x| values[x].is_none()) else {
        let entries = (1..values.len()).map(|x| match values[x] {
            Some(true) => x as i32,
            _ => -(x as i32),
        });
        return Some(entries.collect());
    };
    [true, false].into_iter().find_map(|holds| {
        let mut values = values.clone();
        values[open] = Some(holds);
        solved(clauses, values)
    })
}

/// All rows of k vertices below n.
fn rows(n: u8, k: usize) -> Vec<Vec<u8>> {
    let mut all = vec![Vec::new()];
    for _ in 0..k {
        let longer = |row: &Vec<u8>| {
            let row = row.clone();
            (0..n).map(move |v| [&row[..], &[v]].concat())
        };
        all = all.iter().flat_map(longer).collect();
    }
    all
}

/// All plans that pass for these free agents.
fn plans(instance: &[u8], m: u64, rule: u64) -> Vec<Vec<u8>> {
    let parts = Parts::of(instance);
    let mut all = vec![parts.starts.clone()];
    for t in 1..=m {
        let longer = |plan: &Vec<u8>| {
            let plan = plan.clone();
            let rows = rows(parts.n as u8, parts.k()).into_iter();
            rows.map(move |row| [&plan[..], &row].concat())
                .filter(move |plan| plain::passes(instance, t, rule, plan))
        };
        all = all.iter().flat_map(longer).collect();
    }
    all
}

/// What was compared.
#[derive(Default, Debug)]
struct Seen {
    formulas: usize,
    satisfiable: usize,
    within: usize,
    dearer: usize,
}

/// One instance, whose passing plans these are, with every ceiling up to m·k + 1.
fn compare(instance: &[u8], m: u64, rule: u64, plans: &[Vec<u8>], seen: &mut Seen) {
    let [n, k] = [0, 1].map(|size| usize::from(instance[size]));
    let most = m * k as u64 + 1;
    for c in 0..=most {
        let clauses = plain_ceiling::clauses(instance, m, rule, c);
        compare_words(instance, m, rule, c, &clauses);
        let variables = plain_ceiling::added(n, k, m as usize, c as usize).variables;
        let mut least = None;
        for plan in plans {
            let cost = plain::cost(instance, m, plan) as u64;
            least = Some(least.map_or(cost, |least: u64| least.min(cost)));
            let mut entries = vec![7; variables];
            let answer = encode_ceiling(instance, m, rule, c, plan, &mut entries);
            if cost <= c {
                assert_eq!(answer, says(0, variables as u64));
                assert!(plain::satisfies(&clauses, &entries), "{plan:?}");
                assert_eq!(entries, plain_ceiling::valuation(n, k, c, plan));
                let mut back = vec![7; plan.len()];
                let decoded = decode_ceiling(instance, m, rule, c, &entries, &mut back);
                assert_eq!((decoded, &back), (says(0, plan.len() as u64), plan));
                seen.within += 1;
            } else {
                assert_eq!(answer, says(33, cost));
                // With the X of this plan, whatever B and outputs are, some clause fails.
                let mut values = vec![None; variables + 1];
                for entry in plain::valuation(n, k, plan) {
                    values[entry.unsigned_abs() as usize] = Some(entry > 0);
                }
                assert!(!propagate(&clauses, &mut values), "{plan:?}, c {c}");
                seen.dearer += 1;
            }
        }
        let found = solved(&clauses, vec![None; variables + 1]);
        let within = least.is_some_and(|least| least <= c);
        assert_eq!(found.is_some(), within, "{instance:?}, m {m}, c {c}");
        if let Some(entries) = found {
            let mut plan = vec![7; k * (m as usize + 1)];
            let decoded = decode_ceiling(instance, m, rule, c, &entries, &mut plan);
            assert_eq!(decoded, says(0, plan.len() as u64));
            assert!(plain::cost(instance, m, &plan) as u64 <= c);
            assert!(plans.contains(&plan));
            seen.satisfiable += 1;
        }
        seen.formulas += 1;
    }
}

/// All instances of up to 3 vertices and 2 agents, free ones too, at the horizons up to
/// 3, under both rules.
#[test]
fn small_instances() {
    let mut seen = Seen::default();
    for (n, k) in [(1, 1), (2, 1), (2, 2), (3, 1), (3, 2)] {
        let edges = all_edges(n);
        let differ = |row: &Vec<u8>| k == 1 || row[0] != row[1];
        let goal = |v: u8| if usize::from(v) < n { v } else { NO_GOAL };
        for graph in 0..1usize << edges.len() {
            let chosen = (0..edges.len()).filter(|j| graph >> j & 1 == 1);
            let chosen: Vec<(u8, u8)> = chosen.map(|j| edges[j]).collect();
            for starts in rows(n as u8, k).into_iter().filter(differ) {
                for (m, rule) in (0..=3).flat_map(|m| RULES.map(|rule| (m, rule))) {
                    let free = instance_bytes(n, &chosen, &starts, &vec![NO_GOAL; k]);
                    let all = plans(&free, m, rule);
                    for goals in rows(n as u8 + 1, k) {
                        let goals: Vec<u8> = goals.into_iter().map(goal).collect();
                        if !differ(&goals) && goals[0] != NO_GOAL {
                            continue;
                        }
                        let instance = instance_bytes(n, &chosen, &starts, &goals);
                        let mut passing = all.clone();
                        passing.retain(|plan| plain::passes(&instance, m, rule, plan));
                        compare(&instance, m, rule, &passing, &mut seen);
                    }
                }
            }
        }
    }
    assert!(
        seen.formulas > seen.satisfiable && seen.satisfiable > 5_000,
        "{seen:?}"
    );
    assert!(seen.within > 30_000 && seen.dearer > 30_000, "{seen:?}");
}
