//! Which horizons have a passing plan, by a search through the arrangements of the
//! agents that takes its steps from the three conditions alone.

use super::reversing::{holds_and_reverses, there_and_back};
use super::RULES;
use crate::reversing::{exchanged, held, reversed};
use crate::sample::{all_edges, instance_bytes, path_edges};
use crate::*;

type Edges = [(u8, u8)];
type Row = Vec<u8>;

fn all_different(row: &[u8]) -> bool {
    (0..row.len()).all(|a| !row[..a].contains(&row[a]))
}

/// All rows of k different vertices.
fn arrangements(n: u8, k: usize) -> Vec<Row> {
    let mut rows: Vec<Row> = vec![vec![]];
    for _ in 0..k {
        let longer = |row: &Row| -> Vec<Row> {
            let longer = (0..n).map(|v| [&row[..], &[v]].concat());
            longer.filter(|row| all_different(row)).collect()
        };
        rows = rows.iter().flat_map(longer).collect();
    }
    rows
}

/// May the agents go from this row to that one?
fn valid(edges: &Edges, rule: u64, row: &[u8], next: &[u8]) -> bool {
    let agents = 0..row.len();
    let moves = |&a: &usize| row[a] != next[a];
    let crosses = |a: usize| edges.contains(&(row[a].min(next[a]), row[a].max(next[a])));
    let first = agents.clone().filter(moves).all(crosses);
    let second = match rule {
        1 => agents
            .clone()
            .filter(moves)
            .all(|a| !row.contains(&next[a])),
        _ => agents.clone().all(|a| {
            let mut others = agents.clone().filter(|&b| b != a);
            !others.any(|b| next[a] == row[b] && next[b] == row[a])
        }),
    };
    first && second && all_different(next)
}

/// A map, its arrangements, and which of them follow each.
struct Search {
    rows: Vec<Row>,
    next: Vec<Vec<usize>>,
}

/// For each time and each arrangement the one before it, if it can be taken then. The
/// first has itself before it.
type Layers = Vec<Vec<Option<usize>>>;

impl Search {
    fn new(n: u8, k: usize, edges: &Edges, rule: u64) -> Search {
        let rows = arrangements(n, k);
        let following = |row: &Row| -> Vec<usize> {
            let all = 0..rows.len();
            all.filter(|&to| valid(edges, rule, row, &rows[to]))
                .collect()
        };
        let next = rows.iter().map(following).collect();
        Search { rows, next }
    }

    /// From these starts, all arrangements after 0, 1, .., `most` steps.
    fn from(&self, starts: usize, most: usize) -> Layers {
        let mut layer = vec![None; self.rows.len()];
        layer[starts] = Some(starts);
        let mut layers = vec![layer];
        for t in 0..most {
            let mut layer = vec![None; self.rows.len()];
            let taken = (0..self.rows.len()).filter(|&at| layers[t][at].is_some());
            for at in taken {
                for &to in &self.next[at] {
                    layer[to] = layer[to].or(Some(at));
                }
            }
            layers.push(layer);
        }
        layers
    }

    /// A plan of m steps to these goals, if there is one.
    fn plan(&self, layers: &Layers, m: usize, goals: &[u8]) -> Option<Vec<u8>> {
        let ends = |row: &Row| (0..row.len()).all(|a| goals[a] == 255 || goals[a] == row[a]);
        let mut all = 0..self.rows.len();
        let mut at = all.find(|&at| layers[m][at].is_some() && ends(&self.rows[at]))?;
        let mut rows = vec![self.rows[at].clone()];
        for t in (1..=m).rev() {
            at = layers[t][at]?;
            rows.push(self.rows[at].clone());
        }
        rows.reverse();
        Some(rows.concat())
    }
}

/// The horizons up to 32 at which there is a plan, by the search.
fn horizons(n: u8, edges: &Edges, rule: u64, starts: &[u8], goals: &[u8]) -> Vec<usize> {
    let search = Search::new(n, starts.len(), edges, rule);
    let from = search.rows.iter().position(|row| row == starts);
    let layers = search.from(from.expect("starts are an arrangement"), 32);
    let found = |&m: &usize| search.plan(&layers, m, goals).is_some();
    (0..=32).filter(found).collect()
}

/// The first horizon is known by hand; from it on there is a plan at each, and for the
/// exchange too.
#[test]
fn first_horizons() {
    let ring = all_edges(3);
    let path = path_edges(3);
    let star = [(0, 1), (0, 2), (0, 3)];
    type Known<'a> = (u8, &'a Edges, &'a [u8], &'a [u8], [Option<usize>; 2]);
    let known: [Known; 9] = [
        (2, &[(0, 1)], &[0], &[1], [Some(1); 2]),
        (2, &[], &[0], &[1], [None; 2]),
        (3, &path, &[0], &[0], [Some(0); 2]),
        // Two on an edge never pass each other.
        (2, &[(0, 1)], &[0, 1], &[1, 0], [None; 2]),
        (3, &path, &[0, 1], &[1, 0], [None; 2]),
        // A file: one after the other, or both at once.
        (3, &path, &[0, 1], &[1, 2], [Some(2), Some(1)]),
        // Into the third vertex, on, and on: under rule 2 both go in the first step.
        (3, &ring, &[0, 1], &[1, 0], [Some(3), Some(2)]),
        // Without a vacant vertex nobody moves under rule 1.
        (3, &ring, &[0, 1, 2], &[1, 2, 0], [None, Some(1)]),
        // Over the middle, where agent 1 stands. Under rule 1 one moves at a time: agent 1 to 3, agent 0 to the middle
        // and to 2, agent 1 to the middle and to 1. Under rule 2 each enters the middle while the other leaves it.
        (4, &star, &[1, 0], &[2, 1], [Some(5), Some(3)]),
    ];
    for (n, edges, starts, goals, first) in known {
        for (rule, first) in RULES.into_iter().zip(first) {
            let right: Vec<usize> = first.map_or(vec![], |first| (first..=32).collect());
            let found = horizons(n, edges, rule, starts, goals);
            assert_eq!(found, right, "{starts:?} to {goals:?}, rule {rule}");
            let found = horizons(n, edges, rule, goals, starts);
            assert_eq!(found, right, "{goals:?} to {starts:?}, rule {rule}");
        }
    }
}

/// Goals of k agents, each of which may be free.
fn all_goals(n: u8, k: usize) -> Vec<Row> {
    let mut all: Vec<Row> = vec![vec![]];
    for _ in 0..k {
        let longer = |goals: &Row| -> Vec<Row> {
            let choices = (0..n).filter(|v| !goals.contains(v)).chain([NO_GOAL]);
            choices.map(|v| [&goals[..], &[v]].concat()).collect()
        };
        all = all.iter().flat_map(longer).collect();
    }
    all
}

#[derive(Default)]
struct Counts {
    instances: usize,
    plans: usize,
    returns: usize,
    /// Instances with plans, but none at m 0.
    later: usize,
}

/// All instances of this size under one rule, at m up to `most`: one that has a plan
/// has one at the next horizon, and its exchange has one exactly where it has. The plan
/// that the search finds passes, held and reversed.
fn all_instances(n: u8, k: usize, rule: u64, most: usize, counts: &mut Counts) {
    let possible = all_edges(n.into());
    let goals = all_goals(n, k);
    for graph in 0..1u32 << possible.len() {
        let chosen = (0..possible.len()).filter(|j| graph >> j & 1 == 1);
        let edges: Vec<(u8, u8)> = chosen.map(|j| possible[j]).collect();
        let search = Search::new(n, k, &edges, rule);
        let all = 0..search.rows.len();
        let layers: Vec<Layers> = all.map(|from| search.from(from, most + 1)).collect();
        for (starts, from) in search.rows.iter().zip(&layers) {
            for goals in &goals {
                let instance = instance_bytes(n.into(), &edges, starts, goals);
                let to = search.rows.iter().position(|row| row == goals);
                let plans: Vec<Option<Vec<u8>>> = (0..=most + 1)
                    .map(|m| search.plan(from, m, goals))
                    .collect();
                counts.instances += 1;
                counts.later += usize::from(plans[0].is_none() && plans[most].is_some());
                for m in 0..=most {
                    if let Some(to) = to {
                        let back = search.plan(&layers[to], m, starts);
                        assert_eq!(plans[m].is_some(), back.is_some(), "{instance:?}, m {m}");
                        counts.returns += usize::from(back.is_some());
                    }
                    let Some(plan) = &plans[m] else {
                        continue;
                    };
                    assert!(plans[m + 1].is_some(), "{instance:?}, m {m}");
                    counts.plans += 1;
                    // Decoding takes long.
                    let ask = match counts.plans % 16 {
                        0 => there_and_back,
                        _ => check_plan,
                    };
                    let m = m as u64;
                    let answer = ask(&instance, m, rule, plan);
                    assert_eq!(answer.number, 0, "{instance:?}, {plan:?}");
                    let back = holds_and_reverses(&instance, m, rule, plan, answer.second, ask);
                    assert_eq!(back.is_some(), to.is_some());
                }
            }
        }
    }
}

#[test]
fn all_small_instances() {
    for rule in RULES {
        let mut counts = Counts::default();
        for (n, k, most) in [
            (1, 1, 2),
            (2, 1, 3),
            (2, 2, 3),
            (3, 1, 4),
            (3, 2, 6),
            (3, 3, 6),
            (4, 1, 5),
            (4, 2, 6),
            (4, 3, 9),
            (4, 4, 4),
        ] {
            all_instances(n, k, rule, most, &mut counts);
        }
        let Counts {
            instances,
            plans,
            returns,
            later,
        } = counts;
        assert!(
            instances > 100_000 && plans > 300_000,
            "{instances} {plans}"
        );
        assert!(returns > 50_000 && later > 20_000, "{returns} {later}");
    }
}

/// The search finds a plan exactly where one of all valuations satisfies the formula.
#[test]
fn all_valuations() {
    let mut satisfiable = [0; 2];
    for (n, k, most) in [(1, 1, 3), (2, 1, 3), (2, 2, 1), (3, 1, 2)] {
        let possible = all_edges(n.into());
        for (graph, rule) in (0..1u32 << possible.len()).flat_map(|g| RULES.map(|rule| (g, rule))) {
            let chosen = (0..possible.len()).filter(|j| graph >> j & 1 == 1);
            let edges: Vec<(u8, u8)> = chosen.map(|j| possible[j]).collect();
            for starts in arrangements(n, k) {
                for goals in all_goals(n, k) {
                    let instance = instance_bytes(n.into(), &edges, &starts, &goals);
                    let found = horizons(n, &edges, rule, &starts, &goals);
                    for m in 0..=most {
                        let any = any_satisfies(&instance, m, rule);
                        assert_eq!(found.contains(&m), any, "{instance:?}, m {m}");
                        satisfiable[usize::from(any)] += 1;
                    }
                }
            }
        }
    }
    assert!(
        satisfiable.iter().all(|&times| times > 100),
        "{satisfiable:?}"
    );
}

/// Does the decoder take one of all valuations? Those that it takes it takes held and,
/// where every agent has a goal, reversed.
fn any_satisfies(instance: &[u8], m: usize, rule: u64) -> bool {
    let [n, k] = [0, 1].map(|size| usize::from(instance[size]));
    let count = n * k * (m + 1);
    let all_bound = !instance.contains(&NO_GOAL);
    let mut any = false;
    for signs in 0..1u32 << count {
        let sign = |i: i32| if signs >> i & 1 == 1 { 1 } else { -1 };
        let entries: Vec<i32> = (0..count as i32).map(|i| sign(i) * (i + 1)).collect();
        let mut plan = vec![7; k * (m + 1)];
        if decode(instance, m as u64, rule, &entries, &mut plan).number != 0 {
            continue;
        }
        any = true;
        let mut cases = vec![(instance.to_vec(), m + 1, held(k, &plan))];
        if all_bound {
            cases.push((exchanged(instance), m, reversed(k, &plan)));
        }
        for (instance, m, plan) in cases {
            let entries = plain::valuation(n, k, &plan);
            let mut decoded = vec![7; plan.len()];
            let answer = decode(&instance, m as u64, rule, &entries, &mut decoded);
            assert_eq!((answer.number, decoded), (0, plan));
        }
    }
    any
}
