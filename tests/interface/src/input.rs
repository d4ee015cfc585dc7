//! Plans and valuations, right and damaged.

pub use independent::parts::{malform, Parts};
pub use independent::plain::valuation;

use independent::parts::enter_occupied;
use independent::sample::{grid_edges, Generator};

/// A grid of `side` times `side` vertices, with `k` agents that walk `m` valid steps.
pub fn grid_walk(g: &mut Generator, side: u8, k: usize, m: usize) -> (Vec<u8>, Vec<u8>) {
    let n = side * side;
    let starts = g.vertices(usize::from(n), k);
    let mut parts = Parts {
        n: usize::from(n),
        edges: grid_edges(side),
        goals: starts.clone(),
        starts,
    };
    let plan = walk(g, &parts, m);
    parts.goals = plan[m * k..].to_vec();
    (parts.bytes(), plan)
}

/// A walk of `m` valid steps from the starts.
pub fn walk(g: &mut Generator, parts: &Parts, m: usize) -> Vec<u8> {
    let mut row = parts.starts.clone();
    let mut plan = row.clone();
    for _ in 0..m {
        let mut next = row.clone();
        for a in 0..row.len() {
            let free = |w: &u8| parts.has_edge(row[a], *w) && !row.contains(w) && !next.contains(w);
            let choices: Vec<u8> = (0..parts.n as u8).filter(free).collect();
            if !choices.is_empty() && g.chance(80) {
                next[a] = choices[g.below(choices.len())];
            }
        }
        plan.extend(&next);
        row = next;
    }
    plan
}

/// A horizon above 32.
pub fn long_horizon(g: &mut Generator) -> u64 {
    match g.below(6) {
        0 => 33,
        1 => u64::MAX,
        2 => 1 << 32,
        3 => (1 << 32) + g.below(33) as u64,
        4 => 33 + g.below(300) as u64,
        _ => g.draw() | 1 << 63,
    }
}

/// Changes a passing plan so that condition 1, 2 or 3 alone fails in one step; none where no step allows it.
pub fn break_condition(
    g: &mut Generator,
    condition: usize,
    parts: &Parts,
    m: usize,
    plan: &[u8],
) -> Option<Vec<u8>> {
    let k = parts.k();
    if m == 0 {
        return None;
    }
    for _ in 0..20 {
        let t = g.below(m);
        let row = &plan[t * k..(t + 1) * k];
        let mut next = plan[(t + 1) * k..(t + 2) * k].to_vec();
        let a = g.below(k);
        let w = g.below(parts.n) as u8;
        let others: Vec<usize> = (0..k).filter(|&b| b != a).collect();
        let shared = others.iter().any(|&b| next[b] == w);
        let crosses = w != row[a] && parts.has_edge(row[a], w);
        let stood = row.contains(&w);
        match condition {
            1 if w != row[a] && !crosses && !stood && !shared => next[a] = w,
            2 if crosses && stood => {
                next[a] = w;
                // The agent that stood there must leave to a vacant vertex, or condition 3 fails too.
                for &b in others.iter().filter(|&&b| row[b] == w && shared) {
                    let vacant = |x: &u8| {
                        parts.has_edge(row[b], *x) && !row.contains(x) && !next.contains(x)
                    };
                    next[b] = (0..parts.n as u8).find(vacant).unwrap_or(w);
                }
                if (0..k).any(|b| b != a && next[b] == w) {
                    continue;
                }
            }
            3 if crosses && !stood && !others.is_empty() => {
                let joins = |b: &&usize| parts.has_edge(row[**b], w);
                let Some(&b) = others.iter().find(joins) else {
                    continue;
                };
                next[a] = w;
                next[b] = w;
            }
            _ => continue,
        }
        let mut damaged = plan.to_vec();
        damaged[(t + 1) * k..(t + 2) * k].copy_from_slice(&next);
        if g.chance(50) {
            // Stay there to the end.
            for s in t + 2..=m {
                damaged[s * k..(s + 1) * k].copy_from_slice(&next);
            }
        }
        return Some(damaged);
    }
    None
}

/// A plan: the passing one, or one damaged in some way.
pub fn some_plan(g: &mut Generator, parts: &Parts, m: usize, passing: &[u8]) -> Vec<u8> {
    let (n, k) = (parts.n, parts.k());
    let mut plan = passing.to_vec();
    match g.below(21) {
        0..=2 => {}
        3 => {
            g.damage(&mut plan);
        }
        kind @ 4..=6 => {
            if let Some(damaged) = break_condition(g, kind - 3, parts, m, passing) {
                plan = damaged;
            }
        }
        7 => plan = g.bytes(passing.len()),
        8 => plan.iter_mut().for_each(|v| *v = g.below(n) as u8),
        9 => plan.truncate(passing.len() - 1),
        10 => plan.push(g.below(n) as u8),
        11 => {
            plan = match g.below(4) {
                0 => Vec::new(),
                1 => [passing, passing].concat(),
                2 => [passing, &passing[..k]].concat(),
                _ => passing[..g.below(passing.len())].to_vec(),
            }
        }
        12 => {
            // Two agents exchanged in one row.
            let t = g.below(m + 1);
            plan.swap(t * k + g.below(k), t * k + g.below(k));
        }
        13 => {
            let a = g.below(k);
            plan[a] = g.below(n) as u8;
        }
        14 => {
            // One row repeated.
            let (t, s) = (g.below(m + 1), g.below(m + 1));
            plan[s * k..(s + 1) * k].copy_from_slice(&passing[t * k..(t + 1) * k]);
        }
        15 => {
            // The last row as the one before: valid steps, goals missed where an agent moved.
            if m > 0 {
                let (before, last) = plan.split_at_mut(m * k);
                last.copy_from_slice(&before[(m - 1) * k..]);
            }
        }
        16 => {
            let i = g.below(plan.len());
            plan[i] = [n as u8, 255, 128, 64][g.below(4)];
        }
        kind @ 17..=19 => {
            let number = [20, 25, 26][kind - 17];
            if let Some(damaged) = enter_occupied(g, number, parts, passing) {
                plan = damaged;
            }
        }
        _ => {
            // One byte is another vertex.
            let i = g.below(plan.len());
            plan[i] = ((usize::from(plan[i]) + 1 + g.below(n)) % n) as u8;
        }
    }
    plan
}

/// Entries: a satisfying valuation, or one damaged in some way.
pub fn some_entries(g: &mut Generator, parts: &Parts, m: usize, passing: &[u8]) -> Vec<i32> {
    let (n, k) = (parts.n, parts.k());
    let mut entries = valuation(n, k, passing);
    let count = entries.len();
    let i = g.below(count);
    // The entries of an agent at one time.
    let row = |r: usize| r * n..(r + 1) * n;
    match g.below(22) {
        0..=2 => {}
        3 | 4 => entries[i] = -entries[i],
        5 => {
            for _ in 0..2 + g.below(3) {
                let i = g.below(count);
                entries[i] = -entries[i];
            }
        }
        6 => {
            // Two agents exchanged at one time, as a valuation.
            let t = g.below(m + 1);
            let mut plan = passing.to_vec();
            plan.swap(t * k + g.below(k), t * k + g.below(k));
            entries = valuation(n, k, &plan);
        }
        7 => {
            // The signs of one time and agent repeated in another.
            let mut plan = passing.to_vec();
            plan[g.below(passing.len())] = passing[g.below(passing.len())];
            entries = valuation(n, k, &plan);
        }
        8 => {
            // The entries of one repeated as they are.
            let copy = entries[row(g.below(passing.len()))].to_vec();
            entries[row(g.below(passing.len()))].copy_from_slice(&copy);
        }
        9 => entries.swap(i, g.below(count)),
        10 => entries[i] = [0, i32::MIN, i32::MAX, -1, 1, i32::MIN + 1][g.below(6)],
        11 => {
            entries[i] = match g.below(4) {
                0 => entries[i] + 1,
                1 => entries[i] - 1,
                2 => g.draw() as i32,
                _ => entries[i] ^ 1 << g.below(32),
            }
        }
        12 => entries.truncate(count - 1),
        13 => entries.push(count as i32 + 1),
        14 => entries.truncate(g.below(count)),
        15 => {
            for entry in &mut entries {
                *entry = if g.chance(50) { -*entry } else { *entry };
            }
        }
        16 => entries
            .iter_mut()
            .for_each(|entry| *entry = g.draw() as i32),
        17 => {
            // An agent nowhere at one time.
            for entry in &mut entries[row(g.below(passing.len()))] {
                *entry = -entry.abs();
            }
        }
        18 => {
            // An agent everywhere at one time.
            for entry in &mut entries[row(g.below(passing.len()))] {
                *entry = entry.abs();
            }
        }
        kind @ 19..=21 => {
            if let Some(plan) = break_condition(g, kind - 18, parts, m, passing) {
                entries = valuation(n, k, &plan);
            }
        }
        _ => unreachable!(),
    }
    entries
}

/// A length for a slice that needs `needed`: none, one too short, exact, longer.
pub fn some_length(g: &mut Generator, needed: usize) -> usize {
    match g.below(10) {
        0 => 0,
        1 | 2 => needed.saturating_sub(1),
        3..=6 => needed,
        7 => needed + 1,
        8 => g.below(needed + 1),
        _ => needed + g.below(70),
    }
}
