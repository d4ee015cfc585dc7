//! Plans whose costs are known beforehand, and what a wrong program might count
//! in place of the cost.

use crate::sample::{instance_bytes, largest_instance};

/// An instance, its horizon, a plan that passes, and the plan's cost.
pub type Worked = (Vec<u8>, u64, Vec<u8>, u64);

/// Plans with their costs, worked out by hand: the sum of what is said of each
/// agent.
pub fn worked() -> Vec<Worked> {
    let plan = |n: usize, edges: &[(u8, u8)], k: usize, plan: &[u8], cost: u64| {
        let (first, last) = (&plan[..k], &plan[plan.len() - k..]);
        let m = plan.len() / k - 1;
        let instance = instance_bytes(n, edges, first, last);
        (instance, m as u64, plan.to_vec(), cost)
    };
    let pair = |vertices: &[u8], cost: u64| plan(2, &[(0, 1)], 1, vertices, cost);
    // The agents change sides in every step and end where they began.
    let turning = (0..33).flat_map(|t| (0..16).map(move |a| t % 4 * 16 + a));
    vec![
        pair(&[0], 0),
        pair(&[0, 0, 0], 0),
        pair(&[0, 1], 1),
        // It waits before its move, after it, on both sides.
        pair(&[0, 0, 0, 1], 3),
        pair(&[0, 1, 1, 1], 1),
        pair(&[0, 0, 1, 1], 2),
        // It leaves and comes back, at once, after a wait, and rests before the end.
        pair(&[0, 1, 0], 2),
        pair(&[0, 1, 1, 0], 3),
        pair(&[0, 0, 1, 0, 0], 3),
        // It leaves its goal again.
        pair(&[0, 1, 0, 1, 1], 3),
        // Agent 0 waits and then moves: 2. Agent 1 moves at once: 1.
        plan(3, &[(0, 1), (1, 2)], 2, &[0, 1, 0, 2, 1, 2], 3),
        // No step; one that stays; both to the end, which is 2 for each.
        plan(4, &[(0, 1), (2, 3)], 2, &[0, 2], 0),
        plan(4, &[(0, 1), (2, 3)], 2, &[0, 2, 0, 3], 1),
        plan(4, &[(0, 1), (2, 3)], 2, &[0, 2, 1, 3, 0, 2], 4),
        // 1, 3 and 0.
        plan(
            5,
            &[(0, 1), (2, 3)],
            3,
            &[0, 2, 4, 1, 2, 4, 1, 2, 4, 1, 3, 4],
            4,
        ),
        // 32 for each of 16.
        (largest_instance(), 32, turning.collect(), 512),
    ]
}

/// What is counted of the vertices of each agent, row by row.
type Count = fn(&[Vec<u8>]) -> usize;

/// Wrong counts, each with its name.
const WRONG: [(&str, Count); 12] = [
    ("the moves", |runs| sum(runs, |run| moves(run).len())),
    ("the waits before the first move left out", |runs| {
        sum(runs, |run| until_rest(run) - waits_first(run))
    }),
    ("the waits between two moves left out", |runs| {
        sum(runs, |run| waits_first(run) + moves(run).len())
    }),
    ("the last row left out", |runs| {
        sum(runs, |run| until_rest(&run[..run.len() - 1]))
    }),
    ("the waits after the last move counted", |runs| {
        sum(
            runs,
            |run| if moves(run).is_empty() { 0 } else { last(run) },
        )
    }),
    ("0 for an agent that comes back", |runs| {
        let back = |run: &[u8]| run[0] == run[last(run)];
        sum(runs, |run| if back(run) { 0 } else { until_rest(run) })
    }),
    ("the time until the goal, though it is left again", |runs| {
        let there = |run: &[u8]| run.iter().position(|&v| v == run[last(run)]);
        sum(runs, |run| there(run).unwrap_or(0))
    }),
    ("1 for an agent at m 0", |runs| {
        sum(runs, |run| if last(run) == 0 { 1 } else { until_rest(run) })
    }),
    ("the last agent left out", |runs| {
        sum(&runs[..runs.len() - 1], until_rest)
    }),
    ("the greatest in place of the sum", |runs| {
        runs.iter().map(|run| until_rest(run)).max().unwrap_or(0)
    }),
    ("one less where several are busy to the end", |runs| {
        let most = runs.len() * last(&runs[0]);
        let cost = sum(runs, until_rest);
        if runs.len() > 1 && cost == most && most > 0 {
            most - 1
        } else {
            cost
        }
    }),
    ("the low byte", |runs| sum(runs, until_rest) % 256),
];

/// The vertices of each of k agents, row by row.
pub(crate) fn runs(k: usize, plan: &[u8]) -> Vec<Vec<u8>> {
    let run = |a: usize| plan[a..].iter().step_by(k).copied().collect();
    (0..k).map(run).collect()
}

fn sum(runs: &[Vec<u8>], count: impl Fn(&[u8]) -> usize) -> usize {
    runs.iter().map(|run| count(run)).sum()
}

/// m, for a run of m + 1 vertices.
fn last(run: &[u8]) -> usize {
    run.len() - 1
}

/// The times at which a move ends, rising.
fn moves(run: &[u8]) -> Vec<usize> {
    (1..run.len()).filter(|&t| run[t] != run[t - 1]).collect()
}

pub(crate) fn until_rest(run: &[u8]) -> usize {
    moves(run).last().copied().unwrap_or(0)
}

/// The steps before the first move; none where there is no move.
fn waits_first(run: &[u8]) -> usize {
    moves(run).first().map_or(0, |end| end - 1)
}

/// How many plans tell each wrong count from the cost.
#[derive(Default)]
pub struct Told {
    times: [u64; WRONG.len()],
}

impl Told {
    /// Adds a plan that passes, with its cost.
    pub fn add(&mut self, k: usize, plan: &[u8], cost: u64) {
        let runs = runs(k, plan);
        for (times, (_, count)) in self.times.iter_mut().zip(WRONG) {
            *times += u64::from(count(&runs) as u64 != cost);
        }
    }

    /// The names of the wrong counts, and how many plans tell each of them.
    pub fn times(&self) -> impl Iterator<Item = (&'static str, u64)> + '_ {
        WRONG.iter().map(|wrong| wrong.0).zip(self.times)
    }

    /// The names of those that no plan tells.
    pub fn missing(&self) -> Vec<&'static str> {
        let missing = self.times().filter(|&(_, times)| times == 0);
        missing.map(|(name, _)| name).collect()
    }
}
