//! Inputs for tests, the same for the same seed.

pub use crate::twice::{refused_twice, Twice};
use crate::NO_GOAL;
use std::ops::Range;

/// The generator xorshift64*.
pub struct Generator {
    state: u64,
}

impl Generator {
    pub fn new(seed: u64) -> Generator {
        // The state must not be 0.
        Generator {
            state: if seed == 0 {
                0x9E37_79B9_7F4A_7C15
            } else {
                seed
            },
        }
    }

    /// Any number.
    pub fn draw(&mut self) -> u64 {
        self.state ^= self.state >> 12;
        self.state ^= self.state << 25;
        self.state ^= self.state >> 27;
        self.state.wrapping_mul(0x2545_F491_4F6C_DD1D)
    }

    /// A number below `bound`, which must not be 0.
    pub fn below(&mut self, bound: usize) -> usize {
        ((self.draw() >> 32) % bound as u64) as usize
    }

    /// True in `percent` of 100 cases.
    pub fn chance(&mut self, percent: usize) -> bool {
        self.below(100) < percent
    }

    pub fn shuffle<T>(&mut self, items: &mut [T]) {
        for i in (1..items.len()).rev() {
            items.swap(i, self.below(i + 1));
        }
    }

    /// `k` different vertices below `n`.
    pub fn vertices(&mut self, n: usize, k: usize) -> Vec<u8> {
        let mut all: Vec<u8> = (0..n).map(|v| v as u8).collect();
        self.shuffle(&mut all);
        all.truncate(k);
        all
    }

    /// Goals of `k` agents below `n`; some agents may be free.
    pub fn goals(&mut self, n: usize, k: usize) -> Vec<u8> {
        let mut goals = self.vertices(n, k);
        self.free_some(&mut goals);
        goals
    }

    /// Takes goals away: in half of the cases none, else one, those of the first or
    /// of the last agents, of any, or of all.
    pub fn free_some(&mut self, goals: &mut [u8]) {
        let k = goals.len();
        match self.below(10) {
            0 => goals[self.below(k)] = NO_GOAL,
            1 => goals[..1 + self.below(k)].fill(NO_GOAL),
            2 => goals[self.below(k)..].fill(NO_GOAL),
            3 => goals.fill(NO_GOAL),
            4 => {
                for goal in goals {
                    if self.chance(50) {
                        *goal = NO_GOAL;
                    }
                }
            }
            _ => {}
        }
    }

    /// Each possible edge with the chance `percent`, in stored order.
    pub fn edges(&mut self, n: usize, percent: usize) -> Vec<(u8, u8)> {
        let mut edges = all_edges(n);
        edges.retain(|_| self.chance(percent));
        edges
    }

    /// An accepted instance, for n 1 to 64 and k 1 to 16, at most n.
    pub fn instance(&mut self, n: usize, k: usize, percent: usize) -> Vec<u8> {
        let edges = self.edges(n, percent);
        let starts = self.vertices(n, k);
        let goals = self.goals(n, k);
        instance_bytes(n, &edges, &starts, &goals)
    }

    /// Rule 1 or 2.
    pub fn rule(&mut self) -> u64 {
        1 + self.below(2) as u64
    }

    /// A rule that is none.
    pub fn wrong_rule(&mut self) -> u64 {
        WRONG_RULES[self.below(WRONG_RULES.len())]
    }

    /// An accepted instance and a plan that passes for it under this rule: a random
    /// valid walk, with the goals where it ends; some agents may be free.
    pub fn walk(
        &mut self,
        n: usize,
        k: usize,
        percent: usize,
        m: usize,
        rule: u64,
    ) -> (Vec<u8>, Vec<u8>) {
        self.walk_within(n, percent, m, rule, &vec![0..m; k])
    }

    /// The same, where each agent moves in some stretch of the steps alone: it
    /// waits before, and rests from its end on.
    pub fn waiting_walk(
        &mut self,
        n: usize,
        k: usize,
        percent: usize,
        m: usize,
        rule: u64,
    ) -> (Vec<u8>, Vec<u8>) {
        let stretch = |g: &mut Generator| {
            let (s, t) = (g.below(m + 1), g.below(m + 1));
            s.min(t)..s.max(t)
        };
        let stretches: Vec<Range<usize>> = (0..k).map(|_| stretch(self)).collect();
        self.walk_within(n, percent, m, rule, &stretches)
    }

    /// A walk in which an agent may move in the steps given for it.
    fn walk_within(
        &mut self,
        n: usize,
        percent: usize,
        m: usize,
        rule: u64,
        steps: &[Range<usize>],
    ) -> (Vec<u8>, Vec<u8>) {
        let edges = self.edges(n, percent);
        let starts = self.vertices(n, steps.len());
        let mut row = starts.clone();
        let mut plan = starts.clone();
        for t in 0..m {
            let moving = (0..row.len()).filter(|&a| steps[a].contains(&t)).collect();
            row = match rule {
                1 => self.step(&edges, &row, moving),
                _ => self.closing_step(&edges, &row, moving),
            };
            plan.extend(&row);
        }
        let mut goals = row;
        self.free_some(&mut goals);
        (instance_bytes(n, &edges, &starts, &goals), plan)
    }

    /// A valid step from this row under rule 1; these agents choose, in random order.
    fn step(&mut self, edges: &[(u8, u8)], row: &[u8], mut agents: Vec<usize>) -> Vec<u8> {
        let mut next = row.to_vec();
        self.shuffle(&mut agents);
        for a in agents {
            let mut choices = vec![row[a]];
            for &(low, high) in edges {
                let w = match row[a] {
                    v if v == low => high,
                    v if v == high => low,
                    _ => continue,
                };
                if !row.contains(&w) && !next.contains(&w) {
                    choices.push(w);
                }
            }
            next[a] = choices[self.below(choices.len())];
        }
        next
    }

    /// The edges of some map of `n` vertices, in stored order: one in which the
    /// ways are long, one in several parts, one with many ways, any other.
    pub fn map(&mut self, n: usize) -> Vec<(u8, u8)> {
        let size = n as u8;
        let mut edges: Vec<(u8, u8)> = match self.below(9) {
            0 | 1 => path_edges(size),
            2 => path_edges(size)
                .into_iter()
                .chain([(0, size - 1)])
                .collect(),
            // A tree, in which later vertices hang on one of the three before.
            3 => (1..size)
                .map(|w| (w - 1 - self.below(w.min(3).into()) as u8, w))
                .collect(),
            4 => (0..size - 1).map(|v| (v, size - 1)).collect(),
            5 => {
                let side = (1..=8).rfind(|side| side * side <= n).unwrap_or(1);
                grid_edges(side as u8)
            }
            6 => all_edges(n),
            // A few edges for each vertex, or fewer.
            7 => self.edges(n, 150 / n),
            _ => self.edges(n, 300 / n),
        };
        if self.chance(30) {
            // Some are closed.
            for _ in 0..1 + self.below(3) {
                if !edges.is_empty() {
                    edges.remove(self.below(edges.len()));
                }
            }
        }
        if self.chance(60) {
            // Other numbers for the vertices.
            let names = self.vertices(n, n);
            for (low, high) in &mut edges {
                let (v, w) = (names[usize::from(*low)], names[usize::from(*high)]);
                (*low, *high) = (v.min(w), v.max(w));
            }
        }
        edges.retain(|(low, high)| low < high);
        edges.sort_unstable();
        edges.dedup();
        edges
    }

    /// An accepted instance on some map; most goals can be reached, and some agents
    /// may be free.
    pub fn mapped(&mut self, n: usize, k: usize) -> Vec<u8> {
        let edges = self.map(n);
        let starts = self.vertices(n, k);
        let mut goals = self.vertices(n, k);
        match self.below(6) {
            0 => goals.clone_from(&starts),
            // Each goal is moved to where one can go from its start, if no other goal is
            // there: anywhere, or as far as can be.
            kind @ 1..=4 => {
                for a in 0..k {
                    let mut open = reached(&edges, starts[a]);
                    open.retain(|v| !goals.contains(v));
                    if let Some(&furthest) = open.last() {
                        goals[a] = match kind {
                            1 => furthest,
                            _ => open[self.below(open.len())],
                        };
                    }
                }
            }
            _ => {}
        }
        self.free_some(&mut goals);
        instance_bytes(n, &edges, &starts, &goals)
    }

    /// Gives one byte another value and tells which; none in an empty slice.
    pub fn damage(&mut self, bytes: &mut [u8]) -> Option<usize> {
        if bytes.is_empty() {
            return None;
        }
        let index = self.below(bytes.len());
        // Near values and far ones alike.
        let change = if self.chance(50) {
            1 + self.below(3)
        } else {
            1 + self.below(255)
        };
        bytes[index] = if self.chance(50) {
            bytes[index].wrapping_add(change as u8)
        } else {
            bytes[index].wrapping_sub(change as u8)
        };
        Some(index)
    }

    /// `length` bytes of any value.
    pub fn bytes(&mut self, length: usize) -> Vec<u8> {
        (0..length).map(|_| self.draw() as u8).collect()
    }
}

/// Rules that are none: beside 1 and 2, those whose low bytes are 1 or 2, the largest.
pub const WRONG_RULES: [u64; 12] = [
    0,
    3,
    255,
    256,
    257,
    258,
    65_538,
    (1 << 32) + 1,
    (1 << 32) + 2,
    1 << 63,
    u64::MAX - 1,
    u64::MAX,
];

/// All edges between vertices below `n`, in stored order.
pub fn all_edges(n: usize) -> Vec<(u8, u8)> {
    (0..n as u8)
        .flat_map(|v| (v + 1..n as u8).map(move |w| (v, w)))
        .collect()
}

/// The path 0-1-2-.. of `n` vertices.
pub fn path_edges(n: u8) -> Vec<(u8, u8)> {
    (1..n).map(|w| (w - 1, w)).collect()
}

/// A grid of `side` times `side` vertices, row by row.
pub fn grid_edges(side: u8) -> Vec<(u8, u8)> {
    let n = side * side;
    let mut edges = Vec::new();
    for v in 0..n {
        if v % side + 1 < side {
            edges.push((v, v + 1));
        }
        if v + side < n {
            edges.push((v, v + side));
        }
    }
    edges
}

/// The vertices to which edges lead from this one, itself first, the furthest last.
fn reached(edges: &[(u8, u8)], from: u8) -> Vec<u8> {
    let mut reached = vec![from];
    let mut at = 0;
    while at < reached.len() {
        for &(low, high) in edges {
            for (v, w) in [(low, high), (high, low)] {
                if v == reached[at] && !reached.contains(&w) {
                    reached.push(w);
                }
            }
        }
        at += 1;
    }
    reached
}

/// The instance bytes; nothing is checked.
pub fn instance_bytes(n: usize, edges: &[(u8, u8)], starts: &[u8], goals: &[u8]) -> Vec<u8> {
    let mut bytes = vec![n as u8, starts.len() as u8];
    bytes.extend((edges.len() as u16).to_le_bytes());
    bytes.extend(edges.iter().map(|edge| edge.0));
    bytes.extend(edges.iter().map(|edge| edge.1));
    bytes.extend(starts);
    bytes.extend(goals);
    bytes
}

/// The largest instance: 64 vertices, 2016 edges and 16 agents that stay.
pub fn largest_instance() -> Vec<u8> {
    let agents: Vec<u8> = (0..16).collect();
    instance_bytes(64, &all_edges(64), &agents, &agents)
}
