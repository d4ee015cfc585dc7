//! Plans held until a later horizon and driven back. The library checks what is given and what comes of it.

use crate::errors::{Error, Kind};
use crate::horizon::Horizon;
use crate::map::{self, Map};
use crate::rule::Rule;
use crate::subject::Subject;
use crate::{plan_of, refused, refused_aside, rows, said, size, Outcome, DONE};

pub fn hold(instance: &str, horizon: &str, until: &str, rule: Rule, plan: &[&str]) -> Outcome {
    let until = Horizon::read(until);
    let longer = |map: Map, horizon: Horizon, plan: Vec<u8>| {
        if until.value < horizon.value {
            let details = format!("{} is below makespan {}", until.word, horizon.word);
            return Err(Kind::HeldShorter.with(details));
        }
        let plan = held(map.agents(), &plan, until.times());
        Ok((map, until, plan))
    };
    turned(instance, horizon, rule, plan, longer)
}

pub fn reverse(instance: &str, horizon: &str, rule: Rule, plan: &[&str]) -> Outcome {
    let back = |map: Map, horizon: Horizon, plan: Vec<u8>| {
        let plan = reversed(map.agents(), &plan);
        Ok((exchanged(map, instance)?, horizon, plan))
    };
    turned(instance, horizon, rule, plan, back)
}

pub fn exchange(instance: &str) -> Outcome {
    let map = map::read(instance)?;
    // The size call at horizon 0 asks of the instance alone.
    let (horizon, rule) = (Horizon::read("0"), Rule::default());
    if let Err(answer) = size::formula(&map, &horizon, rule) {
        return refused_aside(answer, Subject::of(&map, &horizon, rule));
    }
    Ok((exchanged(map, instance)?.bytes, DONE))
}

/// The numbers of the plan that is made of a passing one, where it passes too.
fn turned(
    instance: &str,
    horizon: &str,
    rule: Rule,
    plan: &[&str],
    make: impl FnOnce(Map, Horizon, Vec<u8>) -> Result<(Map, Horizon, Vec<u8>), Error>,
) -> Outcome {
    let passes = |map: &Map, horizon: &Horizon, plan: &[u8]| {
        let answer = runglaet::check_plan(&map.bytes, horizon.value, rule.value, plan);
        (answer.number != 0).then(|| {
            let subject = Subject::of(map, horizon, rule);
            refused(answer, subject.with_plan(plan))
        })
    };
    let (map, horizon, plan) = (map::read(instance)?, Horizon::read(horizon), plan_of(plan)?);
    if let Some(refusal) = passes(&map, &horizon, &plan) {
        return refusal;
    }
    let (map, horizon, plan) = make(map, horizon, plan)?;
    if let Some(refusal) = passes(&map, &horizon, &plan) {
        return refusal;
    }
    said(rows::numbers(&map, &plan), DONE)
}

/// A plan of k agents, its last row repeated until there are rows for this many times.
fn held(k: usize, plan: &[u8], times: usize) -> Vec<u8> {
    let last = &plan[plan.len() - k..];
    let more = times.saturating_sub(plan.len() / k);
    [plan, &last.repeat(more)].concat()
}

/// Its rows in reverse order.
fn reversed(k: usize, plan: &[u8]) -> Vec<u8> {
    plan.chunks(k).rev().flatten().copied().collect()
}

/// An accepted instance from a file, with starts and goals exchanged: every agent must have a goal.
fn exchanged(map: Map, path: &str) -> Result<Map, Error> {
    if let Some(a) = (0..map.agents()).find(|&a| map.is_free(a)) {
        return Err(Kind::NoWayBack.with(map.agent(a)).in_file(path));
    }
    let (front, ends) = map.bytes.split_at(map.start_offset());
    let (starts, goals) = ends.split_at(map.agents());
    Ok(Map {
        bytes: [front, goals, starts].concat(),
        ..map
    })
}

#[cfg(test)]
mod tests {
    use super::*;
    use crate::description;

    /// Two agents at three times.
    const PLAN: &[u8] = &[0, 2, 0, 3, 1, 3];

    #[test]
    fn the_last_row_is_repeated() {
        assert_eq!(held(2, PLAN, 3), PLAN);
        assert_eq!(held(2, PLAN, 4), [0, 2, 0, 3, 1, 3, 1, 3]);
        assert_eq!(held(2, PLAN, 5), [0, 2, 0, 3, 1, 3, 1, 3, 1, 3]);
        assert_eq!(held(6, PLAN, 2), [PLAN, PLAN].concat());
        assert_eq!(held(1, &[7], 33), [7; 33]);
    }

    #[test]
    fn rows_are_turned_round_and_agents_are_not() {
        assert_eq!(reversed(2, PLAN), [1, 3, 0, 3, 0, 2]);
        assert_eq!(reversed(3, PLAN), [3, 1, 3, 0, 2, 0]);
        assert_eq!(reversed(1, PLAN), [3, 1, 3, 0, 2, 0]);
        assert_eq!(reversed(6, PLAN), PLAN);
        for k in [1, 2, 3, 6] {
            assert_eq!(reversed(k, &reversed(k, PLAN)), PLAN);
        }
    }

    #[test]
    fn starts_and_goals_are_exchanged() {
        let map = description::map("grid 1 4\nagent 0 1\nagent 2 3").unwrap();
        let there = map.bytes.clone();
        assert_eq!(there, [4, 2, 3, 0, 0, 1, 2, 1, 2, 3, 0, 2, 1, 3]);
        let back = exchanged(map, "").ok().unwrap();
        assert_eq!(back.bytes, [4, 2, 3, 0, 0, 1, 2, 1, 2, 3, 1, 3, 0, 2]);
        assert_eq!(exchanged(back, "").ok().unwrap().bytes, there);
    }

    #[test]
    fn an_agent_without_a_destination_has_no_way_back() {
        let map = description::map("grid 1 4\nagent 0 1\nagent 2 -").unwrap();
        let error = exchanged(map, "a/path").err().unwrap();
        assert_eq!(error.kind, Kind::NoWayBack);
        assert!(error.to_string().ends_with(": agent 1 (line 3): a/path"));
    }
}
