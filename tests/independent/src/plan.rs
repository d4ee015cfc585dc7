//! The plan check.

use crate::instance::{Instance, Rule};
use crate::{answer, refuse, Answer};

/// The count is the cost.
pub fn check_plan(instance: &[u8], horizon: u64, rule: u64, plan: &[u8]) -> Answer {
    answer(check(instance, horizon, rule, plan))
}

fn check(bytes: &[u8], horizon: u64, rule: u64, plan: &[u8]) -> Result<usize, Answer> {
    let instance = Instance::read(bytes, horizon, rule)?;
    check_length(&instance, plan)?;
    check_rows(&instance, plan)?;
    Ok(cost(&instance, plan))
}

/// Question 13.
pub(crate) fn check_length(instance: &Instance, plan: &[u8]) -> Result<(), Answer> {
    if plan.len() != instance.plan_length() {
        return refuse(13, plan.len());
    }
    Ok(())
}

/// Questions 17 to 22 for a plan of the right length.
pub(crate) fn check_rows(instance: &Instance, plan: &[u8]) -> Result<(), Answer> {
    let (k, m) = (instance.k, instance.m);
    if let Some(index) = plan.iter().position(|&v| usize::from(v) >= instance.n) {
        return refuse(17, index);
    }
    if let Some(a) = (0..k).find(|&a| plan[a] != instance.starts[a]) {
        return refuse(18, a);
    }
    for t in 0..m {
        let row = &plan[t * k..(t + 1) * k];
        let next = &plan[(t + 1) * k..(t + 2) * k];
        let moves = |a: usize| row[a] != next[a];
        let place = (t + 1) * k;
        if let Some(a) = (0..k).find(|&a| moves(a) && !instance.has_edge(row[a], next[a])) {
            return refuse(19, place + a);
        }
        if let Some((number, a)) = occupied(instance.rule, row, next) {
            return refuse(number, place + a);
        }
        if let Some(a) = (0..k).find(|&a| next[..a].contains(&next[a])) {
            return refuse(21, place + a);
        }
    }
    if let Some((a, _)) = instance.goals().find(|&(a, v)| plan[m * k + a] != v) {
        return refuse(22, m * k + a);
    }
    Ok(())
}

/// The lowest agent that breaks condition 2 in the step between these rows, and the
/// number for it. It enters a vertex whose occupant stays, comes the other way or
/// moves elsewhere; rule 2 forbids the second alone.
fn occupied(rule: Rule, row: &[u8], next: &[u8]) -> Option<(u32, usize)> {
    let mut moving = (0..row.len()).filter(|&a| row[a] != next[a]);
    moving.find_map(|a| {
        let b = row.iter().position(|&v| v == next[a])?;
        let number = match next[b] {
            v if v == row[b] => 20,
            v if v == row[a] => 25,
            _ => 26,
        };
        (rule == Rule::Vacant || number == 25).then_some((number, a))
    })
}

/// The time until rest, summed over the agents.
pub(crate) fn cost(instance: &Instance, plan: &[u8]) -> usize {
    let agents = 0..instance.k;
    agents.map(|a| time_until_rest(instance, plan, a)).sum()
}

/// The least t such that the agent keeps one vertex in all rows t to m.
pub(crate) fn time_until_rest(instance: &Instance, plan: &[u8], a: usize) -> usize {
    let (k, m) = (instance.k, instance.m);
    let at = |t: usize| plan[t * k + a];
    // The last row is compared first: it differs most often.
    let rests = |t: usize| (t..=m).rev().all(|later| at(later) == at(t));
    // From m on it keeps one: there is no later row.
    (0..=m).find(|&t| rests(t)).unwrap_or(m)
}
