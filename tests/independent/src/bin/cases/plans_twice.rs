//! Plans on which two items fail at once.

use crate::case::{Cases, Given, ENCODER, PLAN, TALLY};
use independent::questions::Item;
use independent::records::some_open;
use independent::sample::instance_bytes;
use independent::{HIGHEST_CEILING, NO_GOAL};

impl Cases {
    /// Such plans for these calls.
    pub fn plans_twice(&mut self, kinds: &[u8]) {
        let given = |n: usize, edges: &[(u8, u8)], starts: &[u8], goals: &[u8], m: u64| Given {
            instance: instance_bytes(n, edges, starts, goals),
            m,
            rule: 1,
        };
        let pair = |m: u64| given(2, &[(0, 1)], &[0], &[1], m);
        let path = |starts: &[u8], goals: &[u8], m: u64| {
            given(4, &[(0, 1), (1, 2), (2, 3)], starts, goals, m)
        };
        let star = given(4, &[(0, 1), (0, 2), (0, 3)], &[1, 2, 3], &[0, 1, 2], 1);
        let ring = given(3, &[(0, 1), (0, 2), (1, 2)], &[0, 1, 2], &[1, 2, 0], 1);
        let plans: [(Given, &[u8], [Item; 2]); 22] = [
            (pair(33), &[0, 1, 0], [(10, 0), (13, 3)]),
            (pair(1), &[0, 1, 9], [(13, 3), (17, 2)]),
            (pair(1), &[1, 2], [(17, 1), (18, 0)]),
            (path(&[0], &[3], 1), &[1, 3], [(18, 0), (19, 1)]),
            // The occupant jumps, stays, enters an occupied vertex itself, or shares one.
            (path(&[0, 1], &[1, 3], 1), &[0, 1, 1, 3], [(19, 3), (26, 2)]),
            (path(&[0, 1], &[1, 2], 1), &[0, 1, 1, 1], [(20, 2), (21, 3)]),
            (
                path(&[0, 1, 2], &[1, 2, 3], 1),
                &[0, 1, 2, 1, 2, 2],
                [(26, 3), (20, 4)],
            ),
            (
                path(&[0, 1, 3], &[1, 2, 3], 1),
                &[0, 1, 3, 1, 2, 2],
                [(26, 3), (21, 5)],
            ),
            (path(&[0, 2], &[1, 2], 1), &[0, 2, 1, 1], [(21, 3), (22, 3)]),
            // 21 in step 0, 19 in step 1.
            (
                path(&[0, 2], &[3, 1], 2),
                &[0, 2, 1, 1, 3, 1],
                [(21, 3), (19, 4)],
            ),
            // Two items of one question, in one step or in two.
            (path(&[0], &[1], 2), &[0, 4, 255], [(17, 1), (17, 2)]),
            (
                path(&[0, 1, 2], &[0, 2, 1], 0),
                &[0, 2, 1],
                [(18, 1), (18, 2)],
            ),
            (path(&[0, 1], &[2, 3], 1), &[0, 1, 2, 3], [(19, 2), (19, 3)]),
            (path(&[0], &[0], 2), &[0, 2, 0], [(19, 1), (19, 2)]),
            (path(&[0, 1], &[1, 0], 1), &[0, 1, 1, 0], [(25, 2), (25, 3)]),
            (ring, &[0, 1, 2, 1, 2, 0], [(26, 3), (26, 4)]),
            (star, &[1, 2, 3, 0, 0, 0], [(21, 4), (21, 5)]),
            (path(&[0, 1], &[1, 2], 1), &[0, 1, 0, 1], [(22, 2), (22, 3)]),
            // Free agents: two that are not on their starts; one that jumps; one that is in the way; one between two that
            // are not at their goals.
            (
                path(&[0, 3], &[NO_GOAL, NO_GOAL], 0),
                &[1, 2],
                [(18, 0), (18, 1)],
            ),
            (
                path(&[0, 3], &[NO_GOAL, 3], 1),
                &[0, 3, 2, 1],
                [(19, 2), (19, 3)],
            ),
            (
                path(&[0, 1], &[0, NO_GOAL], 1),
                &[0, 1, 1, 1],
                [(20, 2), (22, 2)],
            ),
            (
                path(&[0, 1, 3], &[1, NO_GOAL, 2], 1),
                &[0, 1, 3, 0, 1, 3],
                [(22, 3), (22, 5)],
            ),
        ];
        for (given, plan, items) in plans {
            self.two_of_plan(kinds, &given, plan, items);
        }
        self.occupied_and_more(kinds);
    }

    /// The same case for these calls, which take a plan. With a ceiling it is the highest,
    /// with a record one that takes one more.
    fn two_of_plan(&mut self, kinds: &[u8], given: &Given, plan: &[u8], items: [Item; 2]) {
        for &kind in kinds {
            let (number, lent) = match kind {
                PLAN | TALLY => (0, 0),
                ENCODER => (0, given.variables()),
                _ => (HIGHEST_CEILING, given.all_variables(HIGHEST_CEILING)),
            };
            let record = match kind {
                TALLY => some_open(&mut self.random).bytes(),
                _ => Vec::new(),
            };
            let payload = [&record, plan].concat();
            self.two(kind, given, number, &payload, lent, items);
        }
    }

    /// An agent enters an occupied vertex in each of the three ways, and another
    /// item fails. The paths are 0-1-2, 3-4-5 and 6-7-8.
    fn occupied_and_more(&mut self, kinds: &[u8]) {
        let edges = [(0, 1), (1, 2), (3, 4), (4, 5), (6, 7), (7, 8)];
        let given = |starts: &[u8], m: u64| Given {
            instance: instance_bytes(9, &edges, starts, starts),
            m,
            rule: 1,
        };
        // Where the occupant of 1 goes while an agent comes from 0.
        let ways = [(20, 1), (25, 0), (26, 2)];
        for (number, to) in ways {
            // 19 of a higher agent, in this step and in the next.
            let three = [0, 1, 6];
            let plan = [0, 1, 6, 1, to, 8];
            self.two_of_plan(kinds, &given(&three, 1), &plan, [(19, 5), (number, 3)]);
            let plan = [0, 1, 6, 1, to, 6, 1, to, 8];
            self.two_of_plan(kinds, &given(&three, 2), &plan, [(number, 3), (19, 8)]);
            // 21 of a lower agent.
            let four = given(&[6, 8, 0, 1], 1);
            let plan = [6, 8, 0, 1, 7, 7, 1, to];
            self.two_of_plan(kinds, &four, &plan, [(number, 6), (21, 5)]);
            for (other, there) in ways {
                // A higher agent enters 4 from 3, in this step and in the next.
                let four = [0, 1, 3, 4];
                let there = 3 + there;
                let plan = [0, 1, 3, 4, 1, to, 4, there];
                self.two_of_plan(kinds, &given(&four, 1), &plan, [(number, 4), (other, 6)]);
                let plan = [0, 1, 3, 4, 1, to, 3, 4, 1, to, 4, there];
                self.two_of_plan(kinds, &given(&four, 2), &plan, [(number, 4), (other, 10)]);
            }
        }
    }
}
