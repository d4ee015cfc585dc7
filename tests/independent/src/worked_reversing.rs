//! Plans with those held and reversed, all bytes and answers known beforehand.

use crate::questions::Item;
use crate::sample::{instance_bytes, path_edges};
use crate::NO_GOAL;

/// A plan, and what the plan check answers under rule 1 and under rule 2.
pub struct Checked {
    pub instance: Vec<u8>,
    pub m: u64,
    pub plan: Vec<u8>,
    pub answers: [Item; 2],
}

pub struct Worked {
    pub plan: Checked,
    /// With the last row repeated, at m + 1.
    pub held: Checked,
    /// In reverse order, for the instance with starts and goals exchanged.
    pub reversed: Checked,
}

const FREE: u8 = NO_GOAL;

/// Starts and goals, the plan's bytes, and the answers under both rules.
type Row<'a> = ([&'a [u8]; 2], &'a [u8], [Item; 2]);

/// Of the held plan its bytes and answers alone; starts and goals are the plan's.
fn worked_on(
    n: usize,
    edges: &[(u8, u8)],
    plan: Row,
    held: (&[u8], [Item; 2]),
    reversed: Row,
) -> Worked {
    let checked = |(ends, plan, answers): Row| Checked {
        instance: instance_bytes(n, edges, ends[0], ends[1]),
        m: (plan.len() / ends[0].len() - 1) as u64,
        plan: plan.to_vec(),
        answers,
    };
    Worked {
        plan: checked(plan),
        held: checked((plan.0, held.0, held.1)),
        reversed: checked(reversed),
    }
}

/// Worked out by hand.
pub fn worked() -> Vec<Worked> {
    let mut all = costs();
    all.extend(rules());
    all.extend(failing());
    all.extend(free());
    all.extend(longest());
    all
}

/// Plans that pass under both rules: held they cost the same, reversed they may cost
/// more or less.
fn costs() -> Vec<Worked> {
    let same = |cost: u64| [(0, cost); 2];
    let pair: &[(u8, u8)] = &[(0, 1)];
    let there: [&[u8]; 2] = [&[0], &[1]];
    let back: [&[u8]; 2] = [&[1], &[0]];
    let home: [&[u8]; 2] = [&[0], &[0]];
    let two: &[(u8, u8)] = &[(0, 1), (2, 3)];
    vec![
        worked_on(
            2,
            pair,
            (there, &[0, 1], same(1)),
            (&[0, 1, 1], same(1)),
            (back, &[1, 0], same(1)),
        ),
        // No step.
        worked_on(
            2,
            pair,
            (home, &[0], same(0)),
            (&[0, 0], same(0)),
            (home, &[0], same(0)),
        ),
        // Rest at the end is a wait at the beginning, and the other way round.
        worked_on(
            2,
            pair,
            (there, &[0, 1, 1, 1], same(1)),
            (&[0, 1, 1, 1, 1], same(1)),
            (back, &[1, 1, 1, 0], same(3)),
        ),
        worked_on(
            2,
            pair,
            (there, &[0, 0, 1], same(2)),
            (&[0, 0, 1, 1], same(2)),
            (back, &[1, 0, 0], same(1)),
        ),
        // It comes back; the instance is its own exchange.
        worked_on(
            2,
            pair,
            (home, &[0, 1, 0, 0], same(2)),
            (&[0, 1, 0, 0, 0], same(2)),
            (home, &[0, 0, 1, 0], same(3)),
        ),
        // A longer way.
        worked_on(
            4,
            &path_edges(4),
            ([&[0], &[3]], &[0, 1, 2, 3], same(3)),
            (&[0, 1, 2, 3, 3], same(3)),
            ([&[3], &[0]], &[3, 2, 1, 0], same(3)),
        ),
        // Agent 0 waits: 2 and 1. Reversed agent 1 waits: 1 and 2.
        worked_on(
            3,
            &path_edges(3),
            ([&[0, 1], &[1, 2]], &[0, 1, 0, 2, 1, 2], same(3)),
            (&[0, 1, 0, 2, 1, 2, 1, 2], same(3)),
            ([&[1, 2], &[0, 1]], &[1, 2, 0, 2, 0, 1], same(3)),
        ),
        // 1 and 1; reversed 2 and 2.
        worked_on(
            4,
            two,
            ([&[0, 2], &[1, 3]], &[0, 2, 1, 3, 1, 3], same(2)),
            (&[0, 2, 1, 3, 1, 3, 1, 3], same(2)),
            ([&[1, 3], &[0, 2]], &[1, 3, 1, 3, 0, 2], same(4)),
        ),
        // 3 and 1 and 0; reversed 2 and 3 and 0.
        worked_on(
            5,
            two,
            (
                [&[0, 2, 4], &[0, 3, 4]],
                &[0, 2, 4, 0, 3, 4, 1, 3, 4, 0, 3, 4],
                same(4),
            ),
            (&[0, 2, 4, 0, 3, 4, 1, 3, 4, 0, 3, 4, 0, 3, 4], same(4)),
            (
                [&[0, 3, 4], &[0, 2, 4]],
                &[0, 3, 4, 1, 3, 4, 0, 3, 4, 0, 2, 4],
                same(5),
            ),
        ),
    ]
}

/// Plans that pass under rule 2 alone.
fn rules() -> Vec<Worked> {
    let ring: &[(u8, u8)] = &[(0, 1), (0, 2), (1, 2)];
    vec![
        // A file, led by agent 1, and reversed by agent 0.
        worked_on(
            3,
            &path_edges(3),
            ([&[0, 1], &[1, 2]], &[0, 1, 1, 2], [(26, 2), (0, 2)]),
            (&[0, 1, 1, 2, 1, 2], [(26, 2), (0, 2)]),
            ([&[1, 2], &[0, 1]], &[1, 2, 0, 1], [(26, 3), (0, 2)]),
        ),
        // A ring turns, and turns back.
        worked_on(
            3,
            ring,
            (
                [&[0, 1, 2], &[1, 2, 0]],
                &[0, 1, 2, 1, 2, 0],
                [(26, 3), (0, 3)],
            ),
            (&[0, 1, 2, 1, 2, 0, 1, 2, 0], [(26, 3), (0, 3)]),
            (
                [&[1, 2, 0], &[0, 1, 2]],
                &[1, 2, 0, 0, 1, 2],
                [(26, 3), (0, 3)],
            ),
        ),
        // Two change places with the help of a third vertex: 2 and 1, reversed 2 and 2.
        worked_on(
            3,
            ring,
            ([&[0, 1], &[1, 0]], &[0, 1, 2, 0, 1, 0], [(26, 3), (0, 3)]),
            (&[0, 1, 2, 0, 1, 0, 1, 0], [(26, 3), (0, 3)]),
            ([&[1, 0], &[0, 1]], &[1, 0, 2, 0, 0, 1], [(26, 4), (0, 4)]),
        ),
    ]
}

/// Plans that fail, and do so when held and when reversed.
fn failing() -> Vec<Worked> {
    let same = |number: u32, place: u64| [(number, place); 2];
    let pair: &[(u8, u8)] = &[(0, 1)];
    let path = &path_edges(3);
    let there: [&[u8]; 2] = [&[0], &[1]];
    let back: [&[u8]; 2] = [&[1], &[0]];
    vec![
        // An exchange; a jump; a byte that is no vertex.
        worked_on(
            2,
            pair,
            ([&[0, 1], &[1, 0]], &[0, 1, 1, 0], same(25, 2)),
            (&[0, 1, 1, 0, 1, 0], same(25, 2)),
            ([&[1, 0], &[0, 1]], &[1, 0, 0, 1], same(25, 2)),
        ),
        worked_on(
            3,
            path,
            ([&[0], &[2]], &[0, 2], same(19, 1)),
            (&[0, 2, 2], same(19, 1)),
            ([&[2], &[0]], &[2, 0], same(19, 1)),
        ),
        worked_on(
            2,
            pair,
            (there, &[0, 2], same(17, 1)),
            (&[0, 2, 2], same(17, 1)),
            (back, &[2, 0], same(17, 0)),
        ),
        // It misses its goal, or its start: each is the other one reversed.
        worked_on(
            2,
            pair,
            (there, &[0, 0], same(22, 1)),
            (&[0, 0, 0], same(22, 2)),
            (back, &[0, 0], same(18, 0)),
        ),
        worked_on(
            2,
            pair,
            (there, &[1, 1], same(18, 0)),
            (&[1, 1, 1], same(18, 0)),
            (back, &[1, 1], same(22, 1)),
        ),
        // Two share a vertex in row 1: reversed in row 0, which is then not the starts.
        worked_on(
            3,
            path,
            ([&[0, 2], &[1, 2]], &[0, 2, 1, 1], same(21, 3)),
            (&[0, 2, 1, 1, 1, 1], same(21, 3)),
            ([&[1, 2], &[0, 2]], &[1, 1, 0, 2], same(18, 1)),
        ),
        // In the middle they share: agent 0 runs into agent 1, and reversed agent 1 into agent 0.
        worked_on(
            3,
            path,
            ([&[0, 1], &[1, 2]], &[0, 1, 1, 1, 1, 2], [(20, 2), (21, 3)]),
            (&[0, 1, 1, 1, 1, 2, 1, 2], [(20, 2), (21, 3)]),
            ([&[1, 2], &[0, 1]], &[1, 2, 1, 1, 0, 1], [(20, 3), (21, 3)]),
        ),
    ]
}

/// Some agent is free: the plan can be held, but the exchange has a start of 255. The
/// starts begin at offset 8.
fn free() -> Vec<Worked> {
    let refused = |place: u64| [(8, place); 2];
    let path = &path_edges(3);
    vec![
        worked_on(
            3,
            path,
            ([&[0, 1], &[FREE, 2]], &[0, 1, 0, 2], [(0, 1); 2]),
            (&[0, 1, 0, 2, 0, 2], [(0, 1); 2]),
            ([&[FREE, 2], &[0, 1]], &[0, 2, 0, 1], refused(8)),
        ),
        worked_on(
            3,
            path,
            ([&[1, 0], &[2, FREE]], &[1, 0, 2, 1], [(26, 3), (0, 2)]),
            (&[1, 0, 2, 1, 2, 1], [(26, 3), (0, 2)]),
            ([&[2, FREE], &[1, 0]], &[2, 1, 1, 0], refused(9)),
        ),
        worked_on(
            3,
            path,
            ([&[0, 2], &[FREE, FREE]], &[0, 2, 1, 2], [(0, 1); 2]),
            (&[0, 2, 1, 2, 1, 2], [(0, 1); 2]),
            ([&[FREE, FREE], &[0, 2]], &[1, 2, 0, 2], refused(8)),
        ),
    ]
}

/// Plans at the last horizons. At 32 none can be held.
fn longest() -> Vec<Worked> {
    let same = |cost: u64| [(0, cost); 2];
    let pair: &[(u8, u8)] = &[(0, 1)];
    let there: [&[u8]; 2] = [&[0], &[1]];
    let back: [&[u8]; 2] = [&[1], &[0]];
    // One move in the first step of 31, 32 and 33, and in the last.
    let first = |steps: usize| [&[0][..], &vec![1; steps]].concat();
    let last = |steps: usize| [&vec![1; steps][..], &[0]].concat();
    // Each of 16 agents has its own edge.
    let edges: Vec<(u8, u8)> = (0..16).map(|a| (a, 16 + a)).collect();
    let near: Vec<u8> = (0..16).collect();
    let far: Vec<u8> = (16..32).collect();
    let firsts = |steps: usize| [&near[..], &far.repeat(steps)].concat();
    let lasts = |steps: usize| [&far.repeat(steps)[..], &near].concat();
    let (to_far, to_near): ([&[u8]; 2], [&[u8]; 2]) = ([&near, &far], [&far, &near]);
    vec![
        worked_on(
            2,
            pair,
            (there, &first(31), same(1)),
            (&first(32), same(1)),
            (back, &last(31), same(31)),
        ),
        worked_on(
            2,
            pair,
            (there, &first(32), same(1)),
            (&first(33), [(10, 0); 2]),
            (back, &last(32), same(32)),
        ),
        // 16 times 1, 31 and 32.
        worked_on(
            32,
            &edges,
            (to_far, &firsts(31), same(16)),
            (&firsts(32), same(16)),
            (to_near, &lasts(31), same(496)),
        ),
        worked_on(
            32,
            &edges,
            (to_far, &firsts(32), same(16)),
            (&firsts(33), [(10, 0); 2]),
            (to_near, &lasts(32), same(512)),
        ),
    ]
}
