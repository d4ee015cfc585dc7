//! The clause table as nested loops, slow on purpose, and the literal meaning
//! of satisfaction, of passing, of the cost and of distances. Shares no code
//! with the ten calls, but for the test whether an agent is free.
//! Instances and plans given here must be of the right form.

#![allow(clippy::needless_range_loop)]

use crate::is_free;

/// An instance taken apart without any check.
struct Parts {
    n: usize,
    k: usize,
    edges: Vec<(usize, usize)>,
    starts: Vec<usize>,
    /// None for a free agent.
    goals: Vec<Option<usize>>,
}

fn parts(instance: &[u8]) -> Parts {
    let number = |i: usize| instance[i] as usize;
    let (n, k, e) = (number(0), number(1), number(2) + 256 * number(3));
    let goal = |i: usize| match is_free(instance[i]) {
        true => None,
        false => Some(number(i)),
    };
    Parts {
        n,
        k,
        edges: (0..e).map(|j| (number(4 + j), number(4 + e + j))).collect(),
        starts: (0..k).map(|a| number(4 + 2 * e + a)).collect(),
        goals: (0..k).map(|a| goal(4 + 2 * e + k + a)).collect(),
    }
}

impl Parts {
    fn adjacent(&self, v: usize, w: usize) -> bool {
        self.edges.contains(&(v, w)) || self.edges.contains(&(w, v))
    }
}

/// The number of X(t,a,v), for n vertices and the horizon m.
pub fn variable(n: usize, m: usize, t: usize, a: usize, v: usize) -> i32 {
    (1 + (a * (m + 1) + t) * n + v) as i32
}

/// The t, a and v of the variable with this number.
pub fn time_agent_vertex(n: usize, m: usize, variable: i32) -> (usize, usize, usize) {
    let before = variable as usize - 1;
    let (row, v) = (before / n, before % n);
    (row % (m + 1), row / (m + 1), v)
}

/// All clauses of an accepted instance, without the closing zeros. Only rules 1 and
/// 2 have a family G.
pub fn clauses(instance: &[u8], horizon: u64, rule: u64) -> Vec<Vec<i32>> {
    let parts = parts(instance);
    let (n, k, m) = (parts.n, parts.k, horizon as usize);
    let x = |t: usize, a: usize, v: usize| variable(n, m, t, a, v);
    let adjacent: Vec<Vec<bool>> = (0..n)
        .map(|v| (0..n).map(|w| parts.adjacent(v, w)).collect())
        .collect();
    let mut all = Vec::new();
    // A
    for a in 0..k {
        all.push(vec![x(0, a, parts.starts[a])]);
    }
    // B
    for a in 0..k {
        if let Some(goal) = parts.goals[a] {
            all.push(vec![x(m, a, goal)]);
        }
    }
    // C
    for t in 0..=m {
        for a in 0..k {
            all.push((0..n).map(|v| x(t, a, v)).collect());
        }
    }
    // D
    for t in 0..=m {
        for a in 0..k {
            for v in 0..n {
                for w in 0..n {
                    if v < w {
                        all.push(vec![-x(t, a, v), -x(t, a, w)]);
                    }
                }
            }
        }
    }
    // E
    for t in 0..=m {
        for v in 0..n {
            for a in 0..k {
                for b in 0..k {
                    if a < b {
                        all.push(vec![-x(t, a, v), -x(t, b, v)]);
                    }
                }
            }
        }
    }
    // F
    for t in 0..m {
        for a in 0..k {
            for v in 0..n {
                let mut clause = vec![-x(t, a, v), x(t + 1, a, v)];
                for w in 0..n {
                    if adjacent[v][w] {
                        clause.push(x(t + 1, a, w));
                    }
                }
                all.push(clause);
            }
        }
    }
    // G
    for t in 0..m {
        if rule == 1 {
            for a in 0..k {
                for b in 0..k {
                    if a != b {
                        for v in 0..n {
                            all.push(vec![-x(t, b, v), -x(t + 1, a, v)]);
                        }
                    }
                }
            }
        }
        if rule == 2 {
            for (u, v) in &parts.edges {
                for a in 0..k {
                    for b in 0..k {
                        if a != b {
                            let a_goes = [-x(t, a, *u), -x(t + 1, a, *v)];
                            let b_goes = [-x(t, b, *v), -x(t + 1, b, *u)];
                            all.push([a_goes, b_goes].concat());
                        }
                    }
                }
            }
        }
    }
    all
}

/// The clauses of family H, which the pruned writer puts after G.
pub fn family_h(instance: &[u8], horizon: u64) -> Vec<Vec<i32>> {
    let parts = parts(instance);
    let (n, k, m) = (parts.n, parts.k, horizon as usize);
    let distances = distances(instance);
    let further = |v: usize, w: usize, steps: usize| match distances[v][w] {
        Some(distance) => distance > steps,
        None => true,
    };
    let mut all = Vec::new();
    for t in 0..=m {
        for a in 0..k {
            for v in 0..n {
                let too_late = match parts.goals[a] {
                    Some(goal) => further(v, goal, m - t),
                    None => false,
                };
                if further(parts.starts[a], v, t) || too_late {
                    all.push(vec![-variable(n, m, t, a, v)]);
                }
            }
        }
    }
    all
}

/// From every vertex to every vertex, in edges; none where it is unreachable.
pub type Distances = Vec<Vec<Option<usize>>>;

/// The distances of an accepted instance.
pub fn distances(instance: &[u8]) -> Distances {
    let parts = parts(instance);
    distances_over(parts.n, |v, w| parts.adjacent(v, w))
}

/// The distances where these lead on, from the first to the second. Ways may
/// pass through vertex 0, then through 1 too, and so on.
pub fn distances_over(n: usize, leads: impl Fn(usize, usize) -> bool) -> Distances {
    let first = |v: usize, w: usize| match v == w {
        true => Some(0),
        false => leads(v, w).then_some(1),
    };
    let row = |v: usize| (0..n).map(|w| first(v, w)).collect();
    let mut distances: Distances = (0..n).map(row).collect();
    for through in 0..n {
        for v in 0..n {
            for w in 0..n {
                if let (Some(x), Some(y)) = (distances[v][through], distances[through][w]) {
                    if distances[v][w].is_none_or(|z| x + y < z) {
                        distances[v][w] = Some(x + y);
                    }
                }
            }
        }
    }
    distances
}

/// The greatest distance from a start to its goal, 0 for a free agent; none where
/// some goal is unreachable.
pub fn floor(instance: &[u8]) -> Option<usize> {
    let parts = parts(instance);
    let distances = distances(instance);
    let mut floor = 0;
    for a in 0..parts.k {
        if let Some(goal) = parts.goals[a] {
            floor = floor.max(distances[parts.starts[a]][goal]?);
        }
    }
    Some(floor)
}

/// The formula's words: each clause and a 0.
pub fn words(clauses: &[Vec<i32>]) -> Vec<i32> {
    let mut words = Vec::new();
    for clause in clauses {
        words.extend(clause);
        words.push(0);
    }
    words
}

/// The number of the first clause none of whose literals is an entry.
pub fn first_unsatisfied(clauses: &[Vec<i32>], entries: &[i32]) -> Option<usize> {
    let mut sorted = entries.to_vec();
    sorted.sort_unstable();
    let holds = |literal: &i32| sorted.binary_search(literal).is_ok();
    clauses.iter().position(|clause| !clause.iter().any(holds))
}

/// Does the valuation satisfy every clause?
pub fn satisfies(clauses: &[Vec<i32>], entries: &[i32]) -> bool {
    first_unsatisfied(clauses, entries).is_none()
}

/// The valuation that puts agent a, of k, at time t on byte t·k + a and nowhere
/// else: agent after agent, each at all times, with the numbers as they come.
pub fn valuation(n: usize, k: usize, plan: &[u8]) -> Vec<i32> {
    let mut entries = Vec::new();
    for a in 0..k {
        for t in 0..plan.len() / k {
            for v in 0..n {
                let variable = entries.len() as i32 + 1;
                entries.push(if plan[t * k + a] as usize == v {
                    variable
                } else {
                    -variable
                });
            }
        }
    }
    entries
}

/// Does this plan of (m+1)·k bytes pass, for an accepted instance, under rule 1 or 2?
pub fn passes(instance: &[u8], horizon: u64, rule: u64, plan: &[u8]) -> bool {
    let parts = parts(instance);
    let (k, m) = (parts.k, horizon as usize);
    let at = |t: usize, a: usize| plan[t * k + a] as usize;
    let agents = || 0..k;
    let arrived = |a: usize| match parts.goals[a] {
        Some(goal) => at(m, a) == goal,
        None => true,
    };
    let ends = agents().all(|a| at(0, a) == parts.starts[a] && arrived(a));
    let keeps_or_crosses =
        |t: usize, a: usize| at(t, a) == at(t + 1, a) || parts.adjacent(at(t, a), at(t + 1, a));
    let enters_vacant =
        |t: usize, a: usize| at(t, a) == at(t + 1, a) || agents().all(|b| at(t, b) != at(t + 1, a));
    let exchanges = |t: usize, a: usize| {
        agents().any(|b| b != a && at(t, b) == at(t + 1, a) && at(t + 1, b) == at(t, a))
    };
    let condition_2 = |t: usize, a: usize| match rule {
        1 => enters_vacant(t, a),
        _ => !exchanges(t, a),
    };
    let alone = |t: usize, a: usize| agents().all(|b| b == a || at(t + 1, b) != at(t + 1, a));
    ends && (0..m)
        .all(|t| agents().all(|a| keeps_or_crosses(t, a) && condition_2(t, a) && alone(t, a)))
}

/// The cost of a plan that passes: an agent is busy at a time when it is
/// elsewhere at some later one; all busy times of all agents count.
pub fn cost(instance: &[u8], horizon: u64, plan: &[u8]) -> usize {
    let (k, m) = (parts(instance).k, horizon as usize);
    let mut busy = 0;
    for a in 0..k {
        for t in 0..m {
            let mut elsewhere = false;
            for later in t + 1..=m {
                elsewhere |= plan[later * k + a] != plan[t * k + a];
            }
            if elsewhere {
                busy += 1;
            }
        }
    }
    busy
}
