//! Plans that wait at their end, and plans driven backwards.

/// A plan of k agents with its last row once more.
pub fn held(k: usize, plan: &[u8]) -> Vec<u8> {
    [plan, &plan[plan.len() - k..]].concat()
}

/// The rows of a plan of k agents from the last to the first; in each the agents keep
/// their order.
pub fn reversed(k: usize, plan: &[u8]) -> Vec<u8> {
    plan.chunks_exact(k).rev().flatten().copied().collect()
}

/// An instance that passes questions 1 to 5, with starts in place of goals and goals
/// in place of starts.
pub fn exchanged(instance: &[u8]) -> Vec<u8> {
    let (before, starts, goals) = cut(instance);
    [before, goals, starts].concat()
}

/// The same instance, in which every agent's goal is where this plan ends.
pub fn with_all_goals(instance: &[u8], plan: &[u8]) -> Vec<u8> {
    let (before, starts, goals) = cut(instance);
    [before, starts, &plan[plan.len() - goals.len()..]].concat()
}

/// The sizes and edges, the starts, the goals.
pub(crate) fn cut(instance: &[u8]) -> (&[u8], &[u8], &[u8]) {
    let k = usize::from(instance[1]);
    let (before, ends) = instance.split_at(instance.len() - 2 * k);
    let (starts, goals) = ends.split_at(k);
    (before, starts, goals)
}
