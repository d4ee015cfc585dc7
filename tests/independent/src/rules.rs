//! Instances on which the movement rule matters, with answers known beforehand.

use crate::questions::Item;
use crate::sample::{instance_bytes, path_edges};
use crate::NO_GOAL;

/// A plan, and what is answered under rule 1 and under rule 2: by the plan check,
/// and by the decoder for the plan's valuation.
pub type Steps = (&'static [u8], [Item; 2], [Item; 2]);

pub struct Worked {
    pub instance: Vec<u8>,
    pub m: u64,
    pub plans: &'static [Steps],
}

const FREE: u8 = NO_GOAL;

/// Answers worked out by hand.
pub fn worked() -> Vec<Worked> {
    let path = |n: u8, starts: &[u8], goals: &[u8]| {
        instance_bytes(n.into(), &path_edges(n), starts, goals)
    };
    let ring =
        |starts: &[u8], goals: &[u8]| instance_bytes(3, &[(0, 1), (0, 2), (1, 2)], starts, goals);
    vec![
        // B has the clauses 2 and 3, G begins at 32: under rule 1 three for agent 0, under 2 two for each edge.
        Worked {
            instance: path(3, &[0, 1], &[1, 2]),
            m: 1,
            plans: &[
                // They close up, exchange, run into one that stays, stay.
                (&[0, 1, 1, 2], [(26, 2), (0, 2)], [(24, 33), (0, 4)]),
                (&[0, 1, 1, 0], [(25, 2), (25, 2)], [(24, 3), (24, 3)]),
                (&[0, 1, 1, 1], [(20, 2), (21, 3)], [(24, 3), (24, 3)]),
                (&[0, 1, 0, 1], [(22, 2), (22, 2)], [(24, 2), (24, 2)]),
            ],
        },
        // The edge alone: G begins at 20. The agent on its low end is the first or the second.
        Worked {
            instance: path(2, &[0, 1], &[1, 0]),
            m: 1,
            plans: &[(&[0, 1, 1, 0], [(25, 2), (25, 2)], [(24, 21), (24, 20)])],
        },
        Worked {
            instance: path(2, &[1, 0], &[0, 1]),
            m: 1,
            plans: &[(&[1, 0, 0, 1], [(25, 2), (25, 2)], [(24, 20), (24, 21)])],
        },
        // Three in a ring: B has the clauses 3 to 5, G begins at 57.
        Worked {
            instance: ring(&[0, 1, 2], &[1, 2, 0]),
            m: 1,
            plans: &[
                (&[0, 1, 2, 1, 2, 0], [(26, 3), (0, 3)], [(24, 58), (0, 6)]),
                // The other way round, which is not where the goals are.
                (&[0, 1, 2, 2, 0, 1], [(26, 3), (22, 3)], [(24, 3), (24, 3)]),
                (&[0, 1, 2, 1, 0, 2], [(25, 3), (25, 3)], [(24, 4), (24, 4)]),
                (&[0, 1, 2, 0, 2, 1], [(25, 4), (25, 4)], [(24, 3), (24, 3)]),
                // The second stays in the way of the first, while the third follows that one.
                (&[0, 1, 2, 1, 1, 0], [(20, 3), (21, 4)], [(24, 4), (24, 4)]),
            ],
        },
        // The same without goals: E begins at 27, G at 54, with six clauses for each edge under rule 2.
        Worked {
            instance: ring(&[0, 1, 2], &[FREE; 3]),
            m: 1,
            plans: &[
                // Over each edge: agents 0 and 1, 0 and 2, 1 and 2.
                (
                    &[0, 1, 2, 1, 0, 2],
                    [(25, 3), (25, 3)],
                    [(24, 55), (24, 54)],
                ),
                (
                    &[0, 1, 2, 2, 1, 0],
                    [(25, 3), (25, 3)],
                    [(24, 59), (24, 61)],
                ),
                (
                    &[0, 1, 2, 0, 2, 1],
                    [(25, 4), (25, 4)],
                    [(24, 65), (24, 69)],
                ),
                // Both ways round.
                (&[0, 1, 2, 1, 2, 0], [(26, 3), (0, 3)], [(24, 55), (0, 6)]),
                (&[0, 1, 2, 2, 0, 1], [(26, 3), (0, 3)], [(24, 59), (0, 6)]),
                (
                    &[0, 1, 2, 1, 1, 2],
                    [(20, 3), (21, 4)],
                    [(24, 39), (24, 39)],
                ),
            ],
        },
        // The lower agent of each exchange is on the high end.
        Worked {
            instance: ring(&[2, 1, 0], &[FREE; 3]),
            m: 1,
            plans: &[
                (
                    &[2, 1, 0, 1, 2, 0],
                    [(25, 3), (25, 3)],
                    [(24, 55), (24, 68)],
                ),
                (
                    &[2, 1, 0, 2, 0, 1],
                    [(25, 4), (25, 4)],
                    [(24, 63), (24, 59)],
                ),
                (&[2, 1, 0, 1, 0, 2], [(26, 3), (0, 3)], [(24, 55), (0, 6)]),
            ],
        },
        // Two edges: G begins at 124, with 12 clauses for each edge under rule 2. Agents 1 and 3 are on the first
        // edge, 0 and 2 on the second.
        Worked {
            instance: instance_bytes(4, &[(0, 1), (2, 3)], &[2, 0, 3, 1], &[FREE; 4]),
            m: 1,
            plans: &[
                (
                    &[2, 0, 3, 1, 3, 1, 2, 0],
                    [(25, 4), (25, 4)],
                    [(24, 131), (24, 129)],
                ),
                (
                    &[2, 0, 3, 1, 3, 0, 2, 1],
                    [(25, 4), (25, 4)],
                    [(24, 131), (24, 137)],
                ),
                (
                    &[2, 0, 3, 1, 2, 1, 3, 0],
                    [(25, 5), (25, 5)],
                    [(24, 145), (24, 129)],
                ),
            ],
        },
        // The stored order is by low ends: agents 2 and 3 are on the first edge, 0 and 1 on the second.
        Worked {
            instance: instance_bytes(4, &[(0, 3), (1, 2)], &[1, 2, 0, 3], &[FREE; 4]),
            m: 1,
            plans: &[
                (
                    &[1, 2, 0, 3, 2, 1, 3, 0],
                    [(25, 4), (25, 4)],
                    [(24, 126), (24, 132)],
                ),
                (
                    &[1, 2, 0, 3, 2, 1, 0, 3],
                    [(25, 4), (25, 4)],
                    [(24, 126), (24, 136)],
                ),
                (
                    &[1, 2, 0, 3, 1, 2, 3, 0],
                    [(25, 6), (25, 6)],
                    [(24, 159), (24, 132)],
                ),
            ],
        },
        // A file of three: E begins at 66, with 12 clauses for each time, G at 126, under rule 2 with 18 for each step.
        Worked {
            instance: path(4, &[0, 1, 2], &[FREE; 3]),
            m: 2,
            plans: &[
                (
                    &[0, 1, 2, 1, 2, 3, 1, 2, 3],
                    [(26, 3), (0, 3)],
                    [(24, 127), (0, 9)],
                ),
                // Two of it then exchange, or one turns back into the file.
                (
                    &[0, 1, 2, 1, 2, 3, 2, 1, 3],
                    [(26, 3), (25, 6)],
                    [(24, 127), (24, 150)],
                ),
                (
                    &[0, 1, 2, 1, 2, 3, 1, 2, 2],
                    [(26, 3), (21, 8)],
                    [(24, 98), (24, 98)],
                ),
                // Its head stays; an exchange beside a jump; an exchange into which a third one runs.
                (
                    &[0, 1, 2, 1, 2, 2, 1, 2, 2],
                    [(26, 3), (21, 5)],
                    [(24, 86), (24, 86)],
                ),
                (
                    &[0, 1, 2, 1, 0, 0, 1, 0, 0],
                    [(19, 5), (19, 5)],
                    [(24, 80), (24, 80)],
                ),
                (
                    &[0, 1, 2, 1, 0, 1, 1, 0, 1],
                    [(25, 3), (25, 3)],
                    [(24, 82), (24, 82)],
                ),
                // The second runs into the first.
                (
                    &[0, 1, 2, 0, 0, 2, 0, 0, 2],
                    [(20, 4), (21, 4)],
                    [(24, 78), (24, 78)],
                ),
            ],
        },
    ]
}
