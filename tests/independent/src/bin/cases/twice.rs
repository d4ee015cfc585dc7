//! Cases on which two items fail at once.

use crate::case::{
    asked, counted, handed, handed_entries, item, payload_of, Cases, Given, CLAUSE, DECODER,
    ENCODER, FLOOR, PLAN, PRUNED, PRUNED_SIZE, READER, SIZE, WRITER,
};
use independent::questions::{failing, question, Item};
use independent::sample::{instance_bytes, refused_twice};
use independent::NO_GOAL;

impl Cases {
    /// Such a case under rule 1; under rule 2 where the items are the same there; and
    /// under a rule that is none, which is asked between 10 and the later items.
    pub fn two(
        &mut self,
        kind: u8,
        given: &Given,
        number: u64,
        payload: &[u8],
        lent: usize,
        items: [Item; 2],
    ) {
        self.two_items(kind, given, number, payload, lent, items);
        if kind == FLOOR {
            return;
        }
        let entries = handed_entries(kind, payload);
        let fails = |given: &Given, (no, place): Item| {
            let handed = handed(kind, given, number, payload, &entries, lent);
            failing(no, &handed).contains(&place)
        };
        let second = given.under(2);
        if items.iter().all(|&item| fails(&second, item)) {
            self.two_items(kind, &second, number, payload, lent, items);
        }
        let none = given.under(self.random.wrong_rule());
        if items[0].0 <= 10 {
            self.two_items(kind, &none, number, payload, lent, [items[0], (31, 0)]);
            return;
        }
        for item in items {
            if fails(&none, item) {
                self.two_items(kind, &none, number, payload, lent, [(31, 0), item]);
            }
        }
    }

    /// A case on which two items fail, each asked by itself; the first is the answer.
    pub fn two_items(
        &mut self,
        kind: u8,
        given: &Given,
        number: u64,
        payload: &[u8],
        lent: usize,
        items: [Item; 2],
    ) {
        let entries = handed_entries(kind, payload);
        let handed = handed(kind, given, number, payload, &entries, lent);
        for (no, place) in items {
            let places = failing(no, &handed);
            assert!(
                asked(kind).contains(&no) && places.contains(&place),
                "kind {kind}, {items:?}: {no} fails at {places:?}, not at {place}"
            );
        }
        let answer = self.put(kind, given, number, payload, lent).map(item);
        assert_eq!(answer, Some(items[0]), "kind {kind}, {items:?}");
        let [(first, place), (second, other)] = items;
        let by_step = |no: u32| matches!(question(no), 19..=21);
        let step = |place: u64| place / given.k() as u64;
        if !(by_step(first) && by_step(second)) || step(place) == step(other) {
            let rule = counted(kind, given.rule);
            self.twice.insert((kind, rule, first, second));
        }
    }

    /// Cases on which two items fail: of neighbouring questions of each call, of
    /// two steps, and of one question. There is an input for every two neighbours.
    pub fn two_at_once(&mut self) {
        for (instance, m, rule, items) in refused_twice() {
            let given = Given { instance, m, rule };
            let text = b"s SATISFIABLE\nv 1 -2 0\n";
            self.two_items(WRITER, &given, 0, &[], 5, items);
            self.two_items(CLAUSE, &given, 0, &[], 3, items);
            self.two_items(PLAN, &given, 0, &[0, 1, 0], 0, items);
            self.two_items(DECODER, &given, 0, &payload_of(&[1, -2]), 4, items);
            self.two_items(ENCODER, &given, 0, &[0, 1, 0], 4, items);
            self.two_items(READER, &given, 0, text, 4, items);
            if rule == 1 && items.iter().all(|item| item.0 != 10) {
                self.two_items(FLOOR, &given, 0, &[], 0, items);
            }
            self.two_items(PRUNED, &given, 0, &[], 5, items);
            self.two_items(SIZE, &given, 0, &[], 0, items);
            self.two_items(PRUNED_SIZE, &given, 0, &[], 0, items);
        }
        let given = |n: usize, edges: &[(u8, u8)], starts: &[u8], goals: &[u8], m: u64| Given {
            instance: instance_bytes(n, edges, starts, goals),
            m,
            rule: 1,
        };
        let pair = |m: u64| given(2, &[(0, 1)], &[0], &[1], m);

        // The counts of document 01's table at m 33.
        self.two(WRITER, &pair(33), 0, &[], 0, [(10, 0), (12, 472)]);
        self.two(PRUNED, &pair(33), 0, &[], 475, [(10, 0), (12, 476)]);
        self.two(CLAUSE, &pair(33), 136, &[], 66, [(10, 0), (11, 136)]);
        // There is no clause 8; 12 fails because an empty slice fits none.
        self.two(CLAUSE, &pair(1), 8, &[], 0, [(11, 8), (12, 2)]);
        self.none_and_more();

        let staying = |m: u64| given(2, &[], &[0, 1], &[0, 1], m);
        let valuations: [(Given, &[i32], usize, [Item; 2]); 16] = [
            (pair(33), &[1, -2], 34, [(10, 0), (14, 2)]),
            (pair(1), &[1, -2, -3], 1, [(14, 3), (15, 2)]),
            (pair(1), &[1, -2, 4, -3], 1, [(15, 2), (23, 2)]),
            (pair(1), &[-1, -2, -3, 5], 2, [(23, 3), (24, 0)]),
            (pair(1), &[1, -3, -2, 4], 2, [(23, 1), (23, 2)]),
            // The lower index is agent 0's at time 1, the higher one agent 1's at time 0.
            (
                staying(1),
                &[1, -2, 3, -5, -4, 6, -7, 8],
                4,
                [(23, 3), (23, 4)],
            ),
            (pair(1), &[-1, -2, -3, -4], 2, [(24, 0), (24, 1)]),
            // The lower clause is agent 1's; the other one is agent 0's, one time later and with lower variables. They are
            // nowhere, against C, at both vertices, against D, and jump, against F. These begin at 4, at 12 and at 58.
            (
                staying(3),
                &[
                    1, -2, 3, -4, -5, -6, 7, -8, -9, 10, -11, -12, -13, 14, -15, 16,
                ],
                8,
                [(24, 7), (24, 8)],
            ),
            (
                staying(3),
                &[1, -2, 3, -4, 5, 6, 7, -8, -9, 10, 11, 12, -13, 14, -15, 16],
                8,
                [(24, 15), (24, 16)],
            ),
            (
                given(4, &[], &[0, 1], &[2, 3], 2),
                &[
                    1, -2, -3, -4, 5, -6, -7, -8, -9, -10, 11, -12, -13, 14, -15, -16, -17, -18,
                    -19, 20, -21, -22, -23, 24,
                ],
                6,
                [(24, 63), (24, 66)],
            ),
            // Agents 1 and 2 share a vertex at time 1, agents 0 and 1 at time 2: against E, which begins at 54.
            (
                given(3, &[], &[0, 1, 2], &[0, 1, 2], 3),
                &[
                    1, -2, -3, 4, -5, -6, 7, -8, -9, 10, -11, -12, -13, 14, -15, -16, 17, -18, 19,
                    -20, -21, -22, 23, -24, -25, -26, 27, -28, 29, -30, -31, -32, 33, -34, -35, 36,
                ],
                12,
                [(24, 68), (24, 72)],
            ),
            // Agent 1 follows agent 0, then agent 0 follows agent 1: against G, which begins at 49.
            (
                given(3, &[(0, 1), (1, 2)], &[1, 0], &[1, 0], 2),
                &[
                    -1, 2, -3, -4, -5, 6, -7, 8, -9, 10, -11, -12, -13, 14, -15, 16, -17, -18,
                ],
                6,
                [(24, 53), (24, 56)],
            ),
            // Two agents change places: against G, and without the edge against F too.
            (
                given(2, &[(0, 1)], &[0, 1], &[1, 0], 1),
                &[1, -2, -3, 4, -5, 6, 7, -8],
                4,
                [(24, 21), (24, 22)],
            ),
            (
                given(2, &[], &[0, 1], &[1, 0], 1),
                &[1, -2, -3, 4, -5, 6, 7, -8],
                4,
                [(24, 16), (24, 21)],
            ),
            // Behind a free agent, which is nowhere at time 1, another is not at its goal: B has clause 2, C begins at 3.
            (
                given(3, &[(0, 1), (1, 2)], &[0, 2], &[NO_GOAL, 1], 1),
                &[1, -2, -3, -4, -5, -6, -7, -8, 9, -10, -11, 12],
                4,
                [(24, 2), (24, 5)],
            ),
            // Before it and behind it: B has clauses 3 and 4.
            (
                given(3, &[], &[0, 1, 2], &[1, NO_GOAL, 0], 0),
                &[1, -2, -3, -4, 5, -6, -7, -8, 9],
                3,
                [(24, 3), (24, 4)],
            ),
        ];
        for (given, entries, lent, items) in valuations {
            self.two(DECODER, &given, 0, &payload_of(entries), lent, items);
        }

        self.two(ENCODER, &pair(1), 0, &[0, 1, 0], 3, [(13, 3), (16, 4)]);
        self.two(ENCODER, &pair(1), 0, &[0, 2], 3, [(16, 4), (17, 1)]);
        self.plans_twice(&[PLAN, ENCODER]);

        let texts: [(Given, &[u8], usize, [Item; 2]); 19] = [
            (pair(33), b"", 67, [(10, 0), (16, 68)]),
            (pair(1), b"", 3, [(16, 4), (27, 0)]),
            (pair(1), b"v 5", 0, [(16, 4), (27, 0)]),
            (pair(1), b"s UNKNOWN", 3, [(16, 4), (28, 0)]),
            (pair(1), b"s SATISFIABLE\nv 0\n", 3, [(16, 4), (29, 1)]),
            (pair(1), b"s UNSATISFIABLE\nv 5\n", 4, [(27, 16), (28, 0)]),
            (pair(1), b"x\ns UNKNOWN\n", 4, [(27, 0), (28, 2)]),
            (
                pair(1),
                b"s SATISFIABLE\ns UNKNOWN\n",
                4,
                [(27, 14), (28, 14)],
            ),
            (
                pair(1),
                b"s SATISFIABLE\nv 1 1 5 0\n",
                4,
                [(27, 14), (29, 1)],
            ),
            (
                pair(1),
                b"s SATISFIABLE\nv 1 -2 -3\n",
                4,
                [(27, 24), (29, 4)],
            ),
            (pair(1), b"s UNSATISFIABLE\n", 4, [(28, 0), (29, 1)]),
            (
                pair(1),
                b"v 1 -2 -3 4 -4 0\ns UNKNOWN\n",
                4,
                [(28, 17), (29, 4)],
            ),
            // Two wrong lines, or one and something missing.
            (pair(1), b"x\ny\ns UNKNOWN\n", 4, [(27, 0), (27, 2)]),
            (
                pair(1),
                b"s SATISFIABLE\ns UNKNOWN\nv 0\nv 0\n",
                4,
                [(27, 14), (27, 28)],
            ),
            (pair(1), b"v 1 0\nv 1 0\n", 4, [(27, 6), (27, 12)]),
            (pair(1), b"s SATISFIABLE\nv 1 x\n", 4, [(27, 14), (27, 20)]),
            // Two variables.
            (
                pair(1),
                b"s SATISFIABLE\nv 2 2 3 0\n",
                4,
                [(29, 1), (29, 2)],
            ),
            (
                pair(1),
                b"s SATISFIABLE\nv 4 1 4 3 0\n",
                4,
                [(29, 2), (29, 4)],
            ),
            // Agent 0's at time 1, agent 1's at time 0.
            (
                staying(1),
                b"s SATISFIABLE\nv 1 -2 3 6 -7 8 0\n",
                8,
                [(29, 4), (29, 5)],
            ),
        ];
        for (given, text, lent, items) in texts {
            self.two(READER, &given, 0, text, lent, items);
        }

        // The path 0-1-2, and vertices 3 and 4 apart: a goal twice and one out of reach, two out of reach.
        let apart = |starts: &[u8], goals: &[u8]| given(5, &[(0, 1), (1, 2)], starts, goals, 0);
        let floors: [(&[u8], &[u8], [Item; 2]); 5] = [
            (&[0, 1, 2], &[3, 1, 1], [(9, 13), (30, 11)]),
            (&[0, 3], &[3, 3], [(9, 11), (30, 10)]),
            (&[0, 1], &[3, 4], [(30, 10), (30, 11)]),
            (&[0, 1, 3, 4], &[2, 3, 0, 4], [(30, 13), (30, 14)]),
            // A free agent between them.
            (&[0, 3, 1], &[3, NO_GOAL, 4], [(30, 11), (30, 13)]),
        ];
        for (starts, goals, items) in floors {
            self.two(FLOOR, &apart(starts, goals), 0, &[], 0, items);
        }
    }
}
