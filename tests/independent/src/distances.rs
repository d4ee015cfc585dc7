//! Distances in edges, the floor and family H.

use crate::instance::Instance;
use crate::{answer, refuse, Answer};
use std::collections::VecDeque;

/// The count is the greatest distance from an agent's start to its goal; a free
/// agent counts 0.
pub fn floor(instance: &[u8]) -> Answer {
    answer(greatest(instance))
}

fn greatest(bytes: &[u8]) -> Result<usize, Answer> {
    // No horizon and no rule are given; to these questions 10 and 31 say yes.
    let instance = Instance::read(bytes, 0, 1)?;
    let mut floor = 0;
    for (a, goal) in instance.goals() {
        match distances(&instance, instance.starts[a])[usize::from(goal)] {
            Some(distance) => floor = floor.max(distance),
            None => return refuse(30, instance.goal_offset(a)),
        }
    }
    Ok(floor)
}

/// The distances from a vertex, breadth first; none where it is unreachable.
fn distances(instance: &Instance, from: u8) -> Vec<Option<usize>> {
    let from = usize::from(from);
    let mut found = vec![None; instance.n];
    found[from] = Some(0);
    let mut queue = VecDeque::from([from]);
    while let Some(v) = queue.pop_front() {
        for w in instance.neighbours(v) {
            if found[w].is_none() {
                found[w] = found[v].map(|distance| distance + 1);
                queue.push_back(w);
            }
        }
    }
    found
}

/// The literals of family H, one a clause. A free agent has no goal from which a
/// vertex could be too far.
pub(crate) fn family_h(instance: &Instance) -> Vec<i32> {
    let from = |end: u8| distances(instance, end);
    let from_starts: Vec<_> = instance.starts().map(|(_, start)| from(start)).collect();
    let from_goals: Vec<_> = (0..instance.k)
        .map(|a| instance.goal(a).map(from))
        .collect();
    let further = |distance: Option<usize>, steps: usize| distance.is_none_or(|x| x > steps);
    let m = instance.m;
    let mut literals = Vec::new();
    for t in 0..=m {
        for a in 0..instance.k {
            for v in 0..instance.n {
                let from_goal = from_goals[a].as_ref();
                if further(from_starts[a][v], t) || from_goal.is_some_and(|x| further(x[v], m - t))
                {
                    literals.push(-instance.x(t, a, v));
                }
            }
        }
    }
    literals
}
