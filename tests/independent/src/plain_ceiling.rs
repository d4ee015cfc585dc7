//! The ceiling's clauses and the meaning of its variables, written down as request S-12
//! says them. Shares no code with the calls. Instances and plans given here must be of
//! the right form.

use crate::plain::{self, variable};

/// What the ceiling adds for n vertices and k agents at the horizon m.
pub struct Added {
    /// All variables.
    pub variables: usize,
    pub clauses: Vec<Vec<i32>>,
    /// Each node's inputs, places among the B, and its outputs' numbers; left subtree,
    /// right subtree, own.
    pub nodes: Vec<(Vec<usize>, Vec<i32>)>,
}

/// The number of B(t,a).
pub fn not_at_rest(n: usize, k: usize, m: usize, t: usize, a: usize) -> i32 {
    (n * k * (m + 1) + 1 + t * k + a) as i32
}

/// The clauses that come after G, and the variables that they are of.
pub fn added(n: usize, k: usize, m: usize, c: usize) -> Added {
    let x = |t: usize, a: usize, v: usize| variable(n, m, t, a, v);
    let b = |t: usize, a: usize| not_at_rest(n, k, m, t, a);
    let mut added = Added {
        variables: n * k * (m + 1) + m * k,
        clauses: Vec::new(),
        nodes: Vec::new(),
    };
    for t in 0..m {
        for a in 0..k {
            for v in 0..n {
                added
                    .clauses
                    .push(vec![-x(t, a, v), x(t + 1, a, v), b(t, a)]);
            }
        }
    }
    for t in 0..m {
        for a in 0..k {
            if t + 1 < m {
                added.clauses.push(vec![-b(t + 1, a), b(t, a)]);
            }
        }
    }
    if m == 0 {
        return added;
    }
    let first = b(0, 0);
    let inputs: Vec<usize> = (0..m * k).collect();
    let root = tree(&inputs, first, c, &mut added);
    if m * k > c {
        added.clauses.push(vec![-root[c]]);
    }
    added
}

/// The outputs that count these inputs, lowest first; B at place i has the number
/// `first` + i.
fn tree(inputs: &[usize], first: i32, c: usize, added: &mut Added) -> Vec<i32> {
    if let [input] = inputs {
        return vec![first + *input as i32];
    }
    let (left, right) = inputs.split_at(inputs.len() / 2);
    let left = tree(left, first, c, added);
    let right = tree(right, first, c, added);
    let mut own = Vec::new();
    for _ in 0..inputs.len().min(c + 1) {
        added.variables += 1;
        own.push(added.variables as i32);
    }
    for i in 0..=left.len() {
        for j in 0..=right.len() {
            let mut clause = Vec::new();
            if i > 0 {
                clause.push(-left[i - 1]);
            }
            if j > 0 {
                clause.push(-right[j - 1]);
            }
            if i + j > 0 {
                let output = if i + j < c + 1 { i + j } else { c + 1 };
                clause.push(own[output - 1]);
                added.clauses.push(clause);
            }
        }
    }
    added.nodes.push((inputs.to_vec(), own.clone()));
    own
}

/// No list is so long: from here on ceilings mean the same.
const LONG: u64 = 1 << 20;

/// All clauses of an accepted instance with the ceiling c.
pub fn clauses(instance: &[u8], horizon: u64, rule: u64, c: u64) -> Vec<Vec<i32>> {
    let mut all = plain::clauses(instance, horizon, rule);
    let [n, k] = [0, 1].map(|size| usize::from(instance[size]));
    let c = c.min(LONG) as usize;
    all.extend(added(n, k, horizon as usize, c).clauses);
    all
}

/// The valuation of a plan of k agents, each variable set to its meaning, whatever the
/// plan costs.
pub fn valuation(n: usize, k: usize, c: u64, plan: &[u8]) -> Vec<i32> {
    let m = plan.len() / k - 1;
    let mut entries = plain::valuation(n, k, plan);
    let mut busy = Vec::new();
    for t in 0..m {
        for a in 0..k {
            let later = (t + 1..=m).any(|s| plan[s * k + a] != plan[t * k + a]);
            busy.push(later);
            let number = entries.len() as i32 + 1;
            entries.push(if later { number } else { -number });
        }
    }
    for (inputs, outputs) in added(n, k, m, c.min(LONG) as usize).nodes {
        let holding = inputs.iter().filter(|&&input| busy[input]).count();
        for (at, number) in outputs.into_iter().enumerate() {
            assert_eq!(number as usize, entries.len() + 1);
            entries.push(if holding > at { number } else { -number });
        }
    }
    entries
}
