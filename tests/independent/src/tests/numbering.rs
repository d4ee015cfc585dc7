//! The numbers of the variables, worked out by hand from request S-7.

use super::{compare_words, says, UNWRITTEN};
use crate::instance::Instance;
use crate::sample::instance_bytes;
use crate::*;

/// n, m, t, a and v, and the number of X(t,a,v): 1 + (a·(m+1) + t)·n + v.
const NUMBERS: [([usize; 5], i32); 12] = [
    ([3, 1, 0, 0, 0], 1),
    ([3, 1, 0, 0, 2], 3),
    ([3, 1, 1, 0, 0], 4),
    ([3, 1, 0, 1, 0], 7),
    ([3, 1, 1, 1, 2], 12),
    // At m 0 the agents follow each other.
    ([3, 0, 0, 1, 0], 4),
    ([4, 2, 2, 1, 0], 21),
    ([4, 2, 0, 2, 3], 28),
    ([64, 32, 1, 0, 0], 65),
    ([64, 32, 0, 1, 0], 2_113),
    ([64, 32, 0, 15, 0], 31_681),
    ([64, 32, 32, 15, 63], 33_792),
];

#[test]
fn numbers() {
    for ([n, m, t, a, v], number) in NUMBERS {
        let agents: Vec<u8> = (0..n.min(16) as u8).collect();
        let bytes = instance_bytes(n, &[], &agents, &agents);
        let instance = Instance::read(&bytes, m as u64, 1).unwrap_or_else(|no| panic!("{no:?}"));
        assert_eq!(instance.x(t, a, v), number);
        assert_eq!(plain::variable(n, m, t, a, v), number);
        assert_eq!(plain::time_agent_vertex(n, m, number), (t, a, v));
    }
}

/// The path 0-1-2 at m 1, with agents from 0 to 1 and from 2 to 2. Agent 0 has the
/// variables 1 to 3 at time 0 and 4 to 6 at time 1, agent 1 has 7 to 9 and 10 to 12.
fn two_agents() -> Vec<u8> {
    instance_bytes(3, &[(0, 1), (1, 2)], &[0, 2], &[1, 2])
}

/// Its clauses A to G, each family in lines of its own; `floors` has family H.
#[rustfmt::skip]
pub(super) const CLAUSES: [&[i32]; 38] = [
    &[1], &[9],
    &[5], &[12],
    &[1, 2, 3], &[7, 8, 9], &[4, 5, 6], &[10, 11, 12],
    &[-1, -2], &[-1, -3], &[-2, -3], &[-7, -8], &[-7, -9], &[-8, -9],
    &[-4, -5], &[-4, -6], &[-5, -6], &[-10, -11], &[-10, -12], &[-11, -12],
    &[-1, -7], &[-2, -8], &[-3, -9], &[-4, -10], &[-5, -11], &[-6, -12],
    &[-1, 4, 5], &[-2, 5, 4, 6], &[-3, 6, 5], &[-7, 10, 11], &[-8, 11, 10, 12], &[-9, 12, 11],
    &[-7, -4], &[-8, -5], &[-9, -6], &[-1, -10], &[-2, -11], &[-3, -12],
];

#[test]
fn formula_of_two_agents() {
    let instance = two_agents();
    let clauses: Vec<Vec<i32>> = CLAUSES.map(<[i32]>::to_vec).to_vec();
    assert_eq!(plain::clauses(&instance, 1, 1), clauses);
    compare_words(&instance, 1, 1, false, &clauses);
    for (number, literals) in CLAUSES.into_iter().enumerate() {
        let mut words = [UNWRITTEN; 6];
        let mut expected = [literals, &[0]].concat();
        let answer = clause(&instance, 1, 1, number as u64, &mut words);
        assert_eq!(answer, says(0, expected.len() as u64));
        expected.resize(words.len(), UNWRITTEN);
        assert_eq!(words[..], expected);
    }
}

#[test]
fn valuation_of_two_agents() {
    let instance = two_agents();
    let plan = [0, 2, 1, 2];
    let valuation = [1, -2, -3, -4, 5, -6, -7, -8, 9, -10, -11, 12];
    assert_eq!(plain::valuation(3, 2, &plan), valuation);
    let mut entries = [7; 12];
    assert_eq!(encode(&instance, 1, 1, &plan, &mut entries), says(0, 12));
    assert_eq!(entries, valuation);
    let mut decoded = [7; 4];
    assert_eq!(
        decode(&instance, 1, 1, &valuation, &mut decoded),
        says(0, 4)
    );
    assert_eq!(decoded, plan);
    // With the variables of one time together: agent 1 is then at 1 at time 0.
    let by_time = [1, -2, -3, -4, -5, 6, -7, 8, -9, -10, -11, 12];
    let mut lent = [7; 4];
    assert_eq!(decode(&instance, 1, 1, &by_time, &mut lent), says(24, 1));
    assert_eq!(lent, [7; 4]);
}
