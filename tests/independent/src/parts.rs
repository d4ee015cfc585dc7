//! An instance in its parts, right and damaged, and plans damaged with its help.

use crate::is_free;
use crate::sample::{instance_bytes, Generator};

/// The parts of an instance; nothing is checked.
#[derive(Clone, Debug)]
pub struct Parts {
    pub n: usize,
    pub edges: Vec<(u8, u8)>,
    pub starts: Vec<u8>,
    pub goals: Vec<u8>,
}

impl Parts {
    /// The parts of an instance that passes questions 1 to 5.
    pub fn of(bytes: &[u8]) -> Parts {
        let (n, k) = (usize::from(bytes[0]), usize::from(bytes[1]));
        let e = usize::from(u16::from_le_bytes([bytes[2], bytes[3]]));
        let (low, rest) = bytes[4..].split_at(e);
        let (high, rest) = rest.split_at(e);
        let (starts, goals) = rest.split_at(k);
        Parts {
            n,
            edges: low.iter().copied().zip(high.iter().copied()).collect(),
            starts: starts.to_vec(),
            goals: goals.to_vec(),
        }
    }

    pub fn bytes(&self) -> Vec<u8> {
        instance_bytes(self.n, &self.edges, &self.starts, &self.goals)
    }

    pub fn k(&self) -> usize {
        self.starts.len()
    }

    pub fn is_free(&self, a: usize) -> bool {
        is_free(self.goals[a])
    }

    /// The agents without a goal.
    pub fn free(&self) -> Vec<usize> {
        (0..self.k()).filter(|&a| self.is_free(a)).collect()
    }

    /// The agents with one.
    pub fn bound(&self) -> Vec<usize> {
        (0..self.k()).filter(|&a| !self.is_free(a)).collect()
    }

    /// The same, but the first agents have the goals that there are.
    pub fn packed(&self) -> Parts {
        let mut parts = self.clone();
        parts.goals.sort_by_key(|&goal| is_free(goal));
        parts
    }

    pub fn has_edge(&self, v: u8, w: u8) -> bool {
        self.edges.contains(&(v.min(w), v.max(w)))
    }

    fn neighbours(&self, v: u8) -> Vec<u8> {
        (0..self.n as u8).filter(|&w| self.has_edge(v, w)).collect()
    }

    /// Clause counts of the families A to G under rule 1 or 2.
    pub fn clause_counts(&self, m: usize, rule: u64) -> [u64; 7] {
        let (n, k, m) = (self.n as u64, self.k() as u64, m as u64);
        [
            k,
            self.bound().len() as u64,
            (m + 1) * k,
            (m + 1) * k * n * (n - 1) / 2,
            (m + 1) * n * k * (k - 1) / 2,
            m * k * n,
            m * k
                * (k - 1)
                * if rule == 1 {
                    n
                } else {
                    self.edges.len() as u64
                },
        ]
    }

    /// The family, from 0, that holds this clause number.
    pub fn family(&self, m: usize, rule: u64, mut number: u64) -> usize {
        let counts = self.clause_counts(m, rule);
        let mut family = 0;
        while family < 6 && number >= counts[family] {
            number -= counts[family];
            family += 1;
        }
        family
    }
}

/// Changes one step of a passing plan so that an agent enters an occupied vertex and the occupant does what `number`,
/// 20, 25 or 26, tells; up to three others may do so too, each in any of these ways. Whoever moves crosses an
/// edge. None where the plan has no step, or the step does not allow it.
pub fn enter_occupied(
    g: &mut Generator,
    number: u32,
    parts: &Parts,
    plan: &[u8],
) -> Option<Vec<u8>> {
    let k = parts.k();
    let m = plan.len() / k - 1;
    if m == 0 {
        return None;
    }
    let t = g.below(m);
    let row = &plan[t * k..(t + 1) * k];
    let near: Vec<Vec<u8>> = row.iter().map(|&v| parts.neighbours(v)).collect();
    // The entering agent, the occupant, and where that one goes.
    let choices = |number: u32| {
        let mut choices = Vec::new();
        for (a, &v) in row.iter().enumerate() {
            for (b, &w) in row.iter().enumerate() {
                match number {
                    _ if !near[a].contains(&w) => {}
                    20 => choices.push((a, b, w)),
                    25 => choices.push((a, b, v)),
                    _ => {
                        let others = near[b].iter().filter(|&&x| x != v);
                        choices.extend(others.map(|&x| (a, b, x)));
                    }
                }
            }
        }
        choices
    };
    if choices(number).is_empty() {
        return None;
    }
    let mut damaged = plan.to_vec();
    let next = &mut damaged[(t + 1) * k..(t + 2) * k];
    // The one asked for comes last, so that it stands.
    let mut numbers: Vec<u32> = (0..g.below(4)).map(|_| [20, 25, 26][g.below(3)]).collect();
    numbers.push(number);
    for choices in numbers.into_iter().map(choices) {
        if !choices.is_empty() {
            let (a, b, to) = choices[g.below(choices.len())];
            next[a] = row[b];
            next[b] = to;
        }
    }
    Some(damaged)
}

/// Damages an accepted instance so that question `kind`, 1 to 9, is a likely first no; kind 0 and those above 9
/// damage bytes anywhere.
pub fn malform(g: &mut Generator, kind: usize, bytes: &[u8]) -> Vec<u8> {
    let mut parts = Parts::of(bytes);
    let mut bytes = bytes.to_vec();
    let (n, k) = (parts.n, parts.k());
    match kind {
        1 => bytes.truncate(g.below(4)),
        2 => bytes[0] = [0, 65, 255, 128][g.below(4)],
        3 => bytes[1] = [0, 17, (n + 1) as u8, 255][g.below(4)],
        4 => {
            let most = n * (n - 1) / 2;
            let e = [most + 1, 65535, most + 256, most + 1 + g.below(3000)][g.below(4)];
            bytes[2..4].copy_from_slice(&(e as u16).to_le_bytes());
        }
        5 => match g.below(4) {
            0 => bytes.truncate(bytes.len() - 1),
            1 => bytes.push(0),
            2 => bytes.truncate(4 + g.below(bytes.len() - 3)),
            _ => {
                let more = 1 + g.below(300);
                bytes.extend(g.bytes(more));
            }
        },
        6 => {
            if parts.edges.is_empty() {
                parts.edges.push((0, 1));
            }
            let j = g.below(parts.edges.len());
            let (low, high) = parts.edges[j];
            parts.edges[j] = match g.below(5) {
                0 => (high, low),
                1 => (low, low),
                2 => (low, n as u8),
                3 => (low, 255),
                _ => (255, high),
            };
            bytes = parts.bytes();
        }
        7 => {
            let e = parts.edges.len();
            if e < 2 {
                parts.edges = vec![(0, 1), (0, 1)];
            } else {
                let j = 1 + g.below(e - 1);
                match g.below(4) {
                    0 => parts.edges[j] = parts.edges[j - 1],
                    1 => parts.edges.swap(j - 1, j),
                    2 => parts.edges.swap(0, j),
                    _ => g.shuffle(&mut parts.edges),
                }
            }
            bytes = parts.bytes();
        }
        8 | 9 => {
            let ends = if kind == 8 {
                &mut parts.starts
            } else {
                &mut parts.goals
            };
            let a = g.below(k);
            ends[a] = match g.below(4) {
                0 => n as u8,
                // A goal byte of 255 is right.
                1 => [255, 254][kind - 8],
                2 => ends[g.below(k)],
                _ => ends[if a == 0 { k - 1 } else { a - 1 }],
            };
            bytes = parts.bytes();
        }
        10 => {
            let length = g.below(100);
            bytes = g.bytes(length);
        }
        11 => {
            // Sizes that may stand, then anything.
            let length = bytes.len() - 4;
            bytes.truncate(4);
            bytes.extend(g.bytes(length));
        }
        _ => {
            for _ in 0..1 + g.below(3) {
                g.damage(&mut bytes);
            }
        }
    }
    bytes
}
