//! The instance bytes, the horizon and the rule: questions 1 to 10 and 31.

use crate::{answer, refuse, Answer};

/// The goal byte of a free agent, one without a goal.
pub const NO_GOAL: u8 = 255;

/// Is the agent with this goal byte free?
pub fn is_free(goal: u8) -> bool {
    goal == NO_GOAL
}

/// The movement rule: condition 2 and family G.
#[derive(Clone, Copy, PartialEq, Eq, Debug)]
pub(crate) enum Rule {
    /// Rule 1: nobody enters a vertex that was occupied.
    Vacant,
    /// Rule 2: no two agents exchange vertices.
    Exchange,
}

/// An accepted instance with its horizon m and its rule. The arrays are parts of
/// the bytes.
pub(crate) struct Instance<'a> {
    pub n: usize,
    pub k: usize,
    pub m: usize,
    pub rule: Rule,
    low: &'a [u8],
    high: &'a [u8],
    pub starts: &'a [u8],
    goals: &'a [u8],
}

/// Questions 1 to 10 and 31 alone; the count is 0.
pub fn check_instance(instance: &[u8], horizon: u64, rule: u64) -> Answer {
    answer(Instance::read(instance, horizon, rule).map(|_| 0))
}

impl<'a> Instance<'a> {
    pub fn read(bytes: &'a [u8], horizon: u64, rule: u64) -> Result<Instance<'a>, Answer> {
        let &[n, k, e_low, e_high, ref arrays @ ..] = bytes else {
            return refuse(1, bytes.len());
        };
        let (n, k) = (usize::from(n), usize::from(k));
        let e = usize::from(u16::from_le_bytes([e_low, e_high]));
        if !(1..=64).contains(&n) {
            return refuse(2, 0);
        }
        if !(1..=16).contains(&k) || k > n {
            return refuse(3, 1);
        }
        if e > n * (n - 1) / 2 {
            return refuse(4, 2);
        }
        if bytes.len() != 4 + 2 * e + 2 * k {
            return refuse(5, bytes.len());
        }
        let (low, arrays) = arrays.split_at(e);
        let (high, arrays) = arrays.split_at(e);
        let (starts, goals) = arrays.split_at(k);
        let edge = |j: usize| (low[j], high[j]);
        if let Some(j) = (0..e).find(|&j| low[j] >= high[j] || usize::from(high[j]) >= n) {
            return refuse(6, 4 + j);
        }
        if let Some(j) = (1..e).find(|&j| edge(j - 1) >= edge(j)) {
            return refuse(7, 4 + j);
        }
        if let Some(a) = first_bad_vertex(starts, n, |_| true) {
            return refuse(8, 4 + 2 * e + a);
        }
        if let Some(a) = first_bad_vertex(goals, n, |goal| !is_free(goal)) {
            return refuse(9, 4 + 2 * e + k + a);
        }
        if horizon > 32 {
            return refuse(10, 0);
        }
        let rule = match rule {
            1 => Rule::Vacant,
            2 => Rule::Exchange,
            _ => return refuse(31, 0),
        };
        Ok(Instance {
            n,
            k,
            m: horizon as usize,
            rule,
            low,
            high,
            starts,
            goals,
        })
    }

    pub fn edge_count(&self) -> usize {
        self.low.len()
    }

    /// Agent a's goal; none where it is free.
    pub fn goal(&self, a: usize) -> Option<u8> {
        Some(self.goals[a]).filter(|&goal| !is_free(goal))
    }

    /// The agents that have a goal, each with it, in order.
    pub fn goals(&self) -> impl Iterator<Item = (usize, u8)> + '_ {
        (0..self.k).filter_map(|a| Some((a, self.goal(a)?)))
    }

    /// The agents with their starts, in order.
    pub fn starts(&self) -> impl Iterator<Item = (usize, u8)> + '_ {
        self.starts.iter().copied().enumerate()
    }

    /// Where agent a's goal stands in the instance bytes.
    pub fn goal_offset(&self, a: usize) -> usize {
        4 + 2 * self.edge_count() + self.k + a
    }

    /// Bytes of a plan.
    pub fn plan_length(&self) -> usize {
        (self.m + 1) * self.k
    }

    /// N, the number of variables.
    pub fn variable_count(&self) -> usize {
        self.n * self.plan_length()
    }

    /// The variable number of X(t,a,v).
    pub fn x(&self, t: usize, a: usize, v: usize) -> i32 {
        (1 + (a * (self.m + 1) + t) * self.n + v) as i32
    }

    /// The times below `times`, each with all agents: the order of plan bytes and
    /// of families C, D and F.
    pub fn times_and_agents(&self, times: usize) -> impl Iterator<Item = (usize, usize)> {
        let k = self.k;
        (0..times).flat_map(move |t| (0..k).map(move |a| (t, a)))
    }

    /// Clause counts of the families A to G.
    pub fn clause_counts(&self) -> [usize; 7] {
        let (n, k, m) = (self.n, self.k, self.m);
        [
            k,
            self.goals().count(),
            (m + 1) * k,
            (m + 1) * k * (n * (n - 1) / 2),
            (m + 1) * n * (k * (k - 1) / 2),
            m * k * n,
            match self.rule {
                Rule::Vacant => m * k * (k - 1) * n,
                Rule::Exchange => m * self.edge_count() * k * (k - 1),
            },
        ]
    }

    /// Words of a clause of family G, its zero included.
    pub fn g_words(&self) -> usize {
        match self.rule {
            Rule::Vacant => 3,
            Rule::Exchange => 5,
        }
    }

    /// Word counts of the families A to G, zeros included.
    pub fn word_counts(&self) -> [usize; 7] {
        let (n, k, m) = (self.n, self.k, self.m);
        let [a, b, _, d, e, _, g] = self.clause_counts();
        [
            2 * a,
            2 * b,
            (m + 1) * k * (n + 1),
            3 * d,
            3 * e,
            m * k * (3 * n + 2 * self.edge_count()),
            self.g_words() * g,
        ]
    }

    /// The edge at this index: its low end and its high end.
    pub fn edge(&self, j: usize) -> (usize, usize) {
        (self.low[j].into(), self.high[j].into())
    }

    /// The times before m, each with all edges in stored order: the order of family
    /// G under rule 2.
    pub fn times_and_edges(&self) -> impl Iterator<Item = (usize, (usize, usize))> + '_ {
        let edges = move |t: usize| (0..self.edge_count()).map(move |j| (t, self.edge(j)));
        (0..self.m).flat_map(edges)
    }

    /// The edge indexes whose low end is v.
    fn run(&self, v: usize) -> std::ops::Range<usize> {
        let from = self.low.partition_point(|&low| usize::from(low) < v);
        let length = self.low[from..].partition_point(|&low| usize::from(low) == v);
        from..from + length
    }

    pub fn has_edge(&self, v: u8, w: u8) -> bool {
        let run = self.run(usize::from(v.min(w)));
        self.high[run].binary_search(&v.max(w)).is_ok()
    }

    /// The neighbours of v, rising. Edges come sorted by low end, then high
    /// end, so those ending in v stand before those starting from it.
    pub fn neighbours(&self, v: usize) -> impl Iterator<Item = usize> + '_ {
        let run = self.run(v);
        let below = self.low[..run.start]
            .iter()
            .zip(&self.high[..run.start])
            .filter(move |&(_, &high)| usize::from(high) == v)
            .map(|(&low, _)| usize::from(low));
        below.chain(self.high[run].iter().map(|&high| usize::from(high)))
    }
}

/// The first agent, of those whose byte is asked, with a byte that is no vertex or
/// that of a lower agent.
fn first_bad_vertex(bytes: &[u8], n: usize, asked: impl Fn(u8) -> bool) -> Option<usize> {
    let bad = |a: usize| usize::from(bytes[a]) >= n || bytes[..a].contains(&bytes[a]);
    (0..bytes.len()).find(|&a| asked(bytes[a]) && bad(a))
}
