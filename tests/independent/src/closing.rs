//! Steps in which files close up, rings turn and agents exchange vertices.

use crate::is_free;
use crate::parts::Parts;
use crate::sample::Generator;

impl Generator {
    /// A valid step from this row under rule 2 in which these agents may move. Each
    /// goes anywhere; then a file of them is led on, into a vacant vertex or in a ring;
    /// then whoever would share a vertex or exchange stays.
    pub(crate) fn closing_step(
        &mut self,
        edges: &[(u8, u8)],
        row: &[u8],
        agents: Vec<usize>,
    ) -> Vec<u8> {
        let near = |v: u8| -> Vec<u8> {
            let ends = edges.iter().flat_map(|&(v, w)| [(v, w), (w, v)]);
            ends.filter(|ends| ends.0 == v).map(|ends| ends.1).collect()
        };
        let mut next = row.to_vec();
        for &a in &agents {
            let mut choices = near(row[a]);
            choices.push(row[a]);
            next[a] = choices[self.below(choices.len())];
        }
        if !agents.is_empty() && self.chance(70) {
            let mut a = agents[self.below(agents.len())];
            let mut passed = vec![row[a]];
            loop {
                let mut choices = near(row[a]);
                // Not back to where the one behind comes from.
                choices.retain(|v| passed.len() < 2 || *v != passed[passed.len() - 2]);
                if choices.is_empty() {
                    break;
                }
                next[a] = choices[self.below(choices.len())];
                let occupant = agents.iter().find(|&&b| row[b] == next[a]);
                match occupant {
                    Some(&b) if !passed.contains(&next[a]) => a = b,
                    _ => break,
                }
                passed.push(row[a]);
            }
        }
        loop {
            let wrong = |a: usize, b: usize| {
                let exchange = next[a] == row[b] && next[b] == row[a];
                a != b && (next[a] == next[b] || exchange)
            };
            let moving = (0..row.len()).filter(|&a| next[a] != row[a]);
            let mut blocked: Vec<usize> = moving
                .filter(|&a| (0..row.len()).any(|b| wrong(a, b)))
                .collect();
            if blocked.is_empty() {
                return next;
            }
            let a = blocked.swap_remove(self.below(blocked.len()));
            next[a] = row[a];
        }
    }
}

/// Lets agents exchange vertices in some step of a plan and, now and then, in later
/// ones; all others stay from there on. Gives the instance with the goals that there
/// are where the plan ends, and the plan. None where no two agents are neighbours.
pub fn exchange(g: &mut Generator, parts: &Parts, plan: &[u8]) -> Option<(Vec<u8>, Vec<u8>)> {
    let k = parts.k();
    let rows: Vec<&[u8]> = plan.chunks_exact(k).collect();
    let near = |row: &[u8]| {
        let pairs = (0..k).flat_map(|a| (0..a).map(move |b| (a, b)));
        let near = pairs.filter(|&(a, b)| parts.has_edge(row[a], row[b]));
        near.collect::<Vec<_>>()
    };
    let last = rows.len() - 1;
    let steps: Vec<usize> = (0..last).filter(|&t| !near(rows[t]).is_empty()).collect();
    if steps.is_empty() {
        return None;
    }
    let first = steps[g.below(steps.len())];
    let mut exchanged = rows[..=first].concat();
    let mut row = rows[first].to_vec();
    for t in first..last {
        if t == first || g.chance(20) {
            let mut pairs = near(&row);
            g.shuffle(&mut pairs);
            let mut moved = vec![false; k];
            for (a, b) in pairs.into_iter().take(1 + g.below(3)) {
                if !moved[a] && !moved[b] {
                    row.swap(a, b);
                    (moved[a], moved[b]) = (true, true);
                }
            }
        }
        exchanged.extend(&row);
    }
    let mut parts = parts.clone();
    for (goal, v) in parts.goals.iter_mut().zip(row) {
        if !is_free(*goal) {
            *goal = v;
        }
    }
    Some((parts.bytes(), exchanged))
}
