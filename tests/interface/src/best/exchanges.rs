//! Family G under rule 2, which is most of a large formula.

use super::instance::Instance;

/// By straight loops: for each step, edge and agent the clauses with every other agent, one after the other.
pub fn write_exchanges(instance: &Instance, part: &mut [i32]) {
    if part.is_empty() {
        return;
    }
    let (clauses, _) = part.as_chunks_mut::<5>();
    let mut clauses = clauses.chunks_exact_mut(instance.k - 1);
    for (u, v) in steps_and_edges(instance) {
        write_edge(instance, u, v, clauses.by_ref().take(instance.k));
    }
}

/// The variables of agent 0 at the low and the high end, for each step and edge.
fn steps_and_edges<'a>(instance: &'a Instance) -> impl Iterator<Item = (i32, i32)> + 'a {
    let firsts = (1..).step_by(instance.n).take(instance.m);
    firsts.flat_map(|first: i32| {
        let edges = instance.low.iter().zip(instance.high);
        edges.map(move |(&u, &v)| (first + i32::from(u), first + i32::from(v)))
    })
}

/// The clauses of one step and edge: a row of them for each agent, in which those of agents below it come first.
#[inline(always)]
fn write_edge<'a>(
    instance: &Instance,
    u: i32,
    v: i32,
    rows: impl Iterator<Item = &'a mut [[i32; 5]]>,
) {
    let (next_time, next_agent) = (instance.n as i32, instance.before(0, 1) as i32);
    let mut x = 0;
    for (a, row) in rows.enumerate() {
        let (from_u, to_v) = (-(u + x), -(v + next_time + x));
        let (mut from_v, mut to_u) = (-v, -(u + next_time));
        let (below, above) = row.split_at_mut(a);
        for clause in below {
            *clause = [from_u, to_v, from_v, to_u, 0];
            from_v -= next_agent;
            to_u -= next_agent;
        }
        from_v -= next_agent;
        to_u -= next_agent;
        for clause in above {
            *clause = [from_u, to_v, from_v, to_u, 0];
            from_v -= next_agent;
            to_u -= next_agent;
        }
        x += next_agent;
    }
}

/// The words of four clauses.
const WORDS: usize = 20;

/// The clauses of the first step and edge by loops, those of each later one as the ones before with their variables
/// moved, which the compiler does for several words at once.
pub fn move_exchanges(instance: &Instance, part: &mut [i32]) {
    if part.is_empty() {
        return;
    }
    let k = instance.k;
    let mut edges = steps_and_edges(instance);
    let (mut before, mut rest) = part.split_at_mut(5 * k * (k - 1));
    let Some((mut u, mut v)) = edges.next() else {
        return;
    };
    let (clauses, _) = before.as_chunks_mut::<5>();
    write_edge(instance, u, v, clauses.chunks_exact_mut(k - 1));
    for (next_u, next_v) in edges {
        let (up_u, up_v) = (next_u - u, next_v - v);
        let up: [i32; WORDS] = std::array::from_fn(|i| [up_u, up_v, up_v, up_u, 0][i % 5]);
        let (block, after) = rest.split_at_mut(before.len());
        let (clauses, last) = block.as_chunks_mut::<WORDS>();
        let (earlier, last_earlier) = before.as_chunks::<WORDS>();
        for (words, earlier) in clauses.iter_mut().zip(earlier) {
            *words = std::array::from_fn(|i| earlier[i] - up[i]);
        }
        for ((word, earlier), up) in last.iter_mut().zip(last_earlier).zip(up) {
            *word = earlier - up;
        }
        (before, rest) = (block, after);
        (u, v) = (next_u, next_v);
    }
}
