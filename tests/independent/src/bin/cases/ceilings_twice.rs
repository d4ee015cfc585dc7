//! Cases with a ceiling on which two items fail at once.

use crate::case::{
    payload_of, Cases, Given, CEILING_DECODER, CEILING_ENCODER, CEILING_READER, CEILING_SIZE,
    CEILING_WRITER,
};
use independent::questions::{failing, Handed, Item};
use independent::sample::{instance_bytes, refused_twice, WRONG_RULES};

/// Ceilings that are none.
pub const WRONG_CEILINGS: [u64; 6] = [129, 255, 256, 1 << 32, (1 << 32) + 1, u64::MAX];

impl Cases {
    /// Such cases: of neighbouring questions of each call, and of 32 and others.
    pub fn ceilings_twice(&mut self) {
        let entries = payload_of(&[1, -2]);
        let text = b"s SATISFIABLE\nv 1 -2 0\n";
        for (index, (instance, m, rule, items)) in refused_twice().into_iter().enumerate() {
            let given = Given { instance, m, rule };
            // Where it is none it is asked after both.
            let c = match index % 2 {
                0 => 1,
                _ => WRONG_CEILINGS[index / 2 % 6],
            };
            self.two_items(CEILING_SIZE, &given, c, &[], 0, items);
            self.two_items(CEILING_WRITER, &given, c, &[], 5, items);
            self.two_items(CEILING_DECODER, &given, c, &entries, 4, items);
            self.two_items(CEILING_ENCODER, &given, c, &[0, 1, 0], 4, items);
            self.two_items(CEILING_READER, &given, c, text, 4, items);
        }
        self.plans_twice(&[CEILING_ENCODER]);
        self.wrong_ceilings();
        self.with_the_others();
    }

    /// A ceiling that is none beside 10, beside a rule that is none, beside what may come
    /// next, and alone. At m 0 too.
    fn wrong_ceilings(&mut self) {
        let pair = |m: u64, rule: u64| Given {
            instance: instance_bytes(2, &[(0, 1)], &[0], &[1]),
            m,
            rule,
        };
        let text = b"s UNKNOWN";
        for (index, c) in [129, 1 << 32, u64::MAX].into_iter().enumerate() {
            let wrong = WRONG_RULES[4 * index];
            let faults = [
                (33, 1, [(10, 0), (32, 0)]),
                (33, 2, [(10, 0), (32, 0)]),
                (33, wrong, [(10, 0), (31, 0)]),
                (1, wrong, [(31, 0), (32, 0)]),
                (0, wrong, [(31, 0), (32, 0)]),
            ];
            for (m, rule, items) in faults {
                let given = pair(m, rule);
                self.two_items(CEILING_SIZE, &given, c, &[], 0, items);
                self.two_items(CEILING_WRITER, &given, c, &[], 60, items);
                self.two_items(CEILING_DECODER, &given, c, &[], 60, items);
                self.two_items(CEILING_ENCODER, &given, c, &[0, 1], 60, items);
                self.two_items(CEILING_READER, &given, c, text, 60, items);
            }
            // At m 1 there are five variables, and 32 words from c 1 on; at m 0 two and 10.
            for rule in [1, 2] {
                let cases: [(u64, u8, &[u8], usize, Item); 8] = [
                    (1, CEILING_WRITER, &[], 31, (12, 32)),
                    (0, CEILING_WRITER, &[], 9, (12, 10)),
                    (1, CEILING_DECODER, &payload_of(&[1, -2, -3, 4]), 2, (14, 4)),
                    (0, CEILING_DECODER, &payload_of(&[1, -2]), 0, (15, 1)),
                    (1, CEILING_ENCODER, &[0, 1, 1], 5, (13, 3)),
                    (0, CEILING_ENCODER, &[0], 1, (16, 2)),
                    (1, CEILING_READER, text, 4, (16, 5)),
                    (0, CEILING_READER, b"", 2, (27, 0)),
                ];
                for (m, kind, payload, lent, item) in cases {
                    self.two_items(kind, &pair(m, rule), c, payload, lent, [(32, 0), item]);
                }
                for m in [0, 1] {
                    self.put(CEILING_SIZE, &pair(m, rule), c, &[], 0);
                    self.put(CEILING_WRITER, &pair(m, rule), c, &[], 40);
                }
            }
        }
        // With a rule alone that is none.
        for rule in [0, 3, 128, u64::MAX] {
            let given = pair(1, rule);
            self.put(CEILING_SIZE, &given, 1, &[], 0);
            self.put(CEILING_WRITER, &given, 1, &[], 32);
            let right = payload_of(&[1, -2, -3, 4, 5]);
            self.put(CEILING_DECODER, &given, 1, &right, 2);
            self.put(CEILING_ENCODER, &given, 2, &[0, 1], 5);
            let text = b"s SATISFIABLE\nv 1 -2 -3 4 5 0\n";
            self.put(CEILING_READER, &given, 1, text, 5);
        }
    }

    /// Two of a call's own questions, or one and 10. Here the pair at m 3 has 15 variables
    /// at c 1, and the base's clauses are 0 to 15.
    fn with_the_others(&mut self) {
        let pair = |m: u64| Given {
            instance: instance_bytes(2, &[(0, 1)], &[0], &[1]),
            m,
            rule: 1,
        };
        let valuation: [i32; 15] = [1, -2, -3, 4, -5, 6, -7, 8, 9, -10, -11, -12, -13, 14, -15];
        let with = |changed: &[i32]| {
            let mut entries = valuation;
            for &entry in changed {
                entries[entry.unsigned_abs() as usize - 1] = entry;
            }
            entries.to_vec()
        };
        let exchanged = |i: usize, entries: &[i32]| {
            let mut entries = entries.to_vec();
            entries.swap(i, i + 1);
            entries
        };
        let mut longer = valuation.to_vec();
        longer.push(16);
        let decoded: [(Vec<i32>, usize, [Item; 2]); 12] = [
            (valuation[..8].to_vec(), 3, [(14, 8), (15, 4)]),
            (longer, 0, [(14, 16), (15, 4)]),
            (exchanged(13, &valuation), 3, [(15, 4), (23, 13)]),
            (exchanged(8, &valuation), 4, [(23, 8), (23, 9)]),
            (exchanged(13, &with(&[-1])), 4, [(23, 13), (24, 0)]),
            (exchanged(13, &with(&[-9])), 4, [(23, 13), (24, 16)]),
            // In the base and behind it; rest, chain, tree and limit.
            (with(&[-8, -9]), 4, [(24, 1), (24, 16)]),
            (with(&[5, 15]), 4, [(24, 8), (24, 32)]),
            (with(&[-9, 15]), 4, [(24, 16), (24, 32)]),
            (with(&[11]), 4, [(24, 23), (24, 24)]),
            (with(&[10, 13]), 4, [(24, 25), (24, 28)]),
            (with(&[-14, 12]), 4, [(24, 27), (24, 30)]),
        ];
        for (entries, lent, items) in decoded {
            let payload = payload_of(&entries);
            self.two(CEILING_DECODER, &pair(3), 1, &payload, lent, items);
        }
        self.two(CEILING_DECODER, &pair(33), 1, &[], 34, [(10, 0), (14, 0)]);

        let encoded: [(u64, &[u8], usize, [Item; 2]); 10] = [
            (1, &[0, 0, 1], 14, [(13, 3), (16, 15)]),
            (1, &[0, 0, 0, 2], 14, [(16, 15), (17, 3)]),
            // It costs 3, or would.
            (1, &[0, 0, 0, 1], 14, [(16, 15), (33, 3)]),
            (0, &[0, 1, 0, 1], 12, [(16, 13), (33, 3)]),
            (2, &[0, 0, 0, 2], 60, [(17, 3), (33, 3)]),
            (1, &[1, 0, 0, 1], 15, [(18, 0), (33, 3)]),
            (1, &[0, 1, 0, 0], 15, [(22, 3), (33, 2)]),
            (0, &[0, 1, 0, 0], 13, [(22, 3), (33, 2)]),
            (2, &[0, 1, 1, 0], 16, [(22, 3), (33, 3)]),
            (0, &[0, 0, 0, 0], 12, [(16, 13), (22, 3)]),
        ];
        for (c, plan, lent, items) in encoded {
            self.two(CEILING_ENCODER, &pair(3), c, plan, lent, items);
        }
        self.two(CEILING_ENCODER, &pair(33), 1, &[0], 99, [(10, 0), (13, 1)]);
        // Beside a wrong step, of the path and two agents.
        let path = Given {
            instance: instance_bytes(3, &[(0, 1), (1, 2)], &[0, 1], &[1, 2]),
            m: 1,
            rule: 1,
        };
        let steps: [(&[u8], Item); 5] = [
            (&[0, 1, 2, 0], (19, 2)),
            (&[0, 1, 1, 0], (25, 2)),
            (&[0, 1, 1, 2], (26, 2)),
            (&[0, 1, 2, 2], (19, 2)),
            (&[0, 1, 0, 0], (20, 3)),
        ];
        for (plan, item) in steps {
            let cost = plan[2..].iter().zip([0, 1]).filter(|x| *x.0 != x.1).count() as u64;
            self.two(CEILING_ENCODER, &path, 0, plan, 30, [item, (33, cost)]);
        }

        let texts: [(u64, &[u8], usize, [Item; 2]); 7] = [
            (1, b"", 4, [(16, 5), (27, 0)]),
            (1, b"v 6", 4, [(16, 5), (27, 0)]),
            (1, b"s UNKNOWN\nv 6", 5, [(27, 10), (28, 0)]),
            (
                1,
                b"s SATISFIABLE\nv 1 -2 -3 4 -6 0",
                5,
                [(27, 14), (29, 5)],
            ),
            (1, b"s UNSATISFIABLE\nv 5 4 3 2 0", 5, [(28, 0), (29, 1)]),
            (1, b"s SATISFIABLE\nv 1 -2 -3 0", 5, [(29, 4), (29, 5)]),
            (
                1,
                b"s SATISFIABLE\nv 1 -2 -3 4 5 -5 0",
                4,
                [(16, 5), (29, 5)],
            ),
        ];
        for (m, text, lent, items) in texts {
            self.two(CEILING_READER, &pair(m), 1, text, lent, items);
        }
        // At m 33, where the questions alone count.
        let given = pair(33);
        let [variables, words] = [16, 12].map(|number| (number, needed(number, &given, 1)));
        self.two(CEILING_READER, &given, 1, b"", 5, [(10, 0), variables]);
        self.two(CEILING_WRITER, &given, 1, &[], 0, [(10, 0), words]);
    }
}

/// What the question about a slice says that this needs, whatever the horizon.
fn needed(number: u32, given: &Given, c: u64) -> u64 {
    let handed = Handed {
        instance: &given.instance,
        horizon: given.m,
        rule: given.rule,
        ceiling: Some(c),
        ..Handed::default()
    };
    failing(number, &handed)[0]
}
