//! Cases on which the rule matters, and the largest instance.

use crate::case::{
    payload_of, Cases, Given, CLAUSE, DECODER, ENCODER, ENTRIES, PLAN, PRUNED, READER, WORDS,
    WRITER,
};
use crate::small::sequences;
use independent::closing::exchange;
use independent::parts::Parts;
use independent::questions::Item;
use independent::sample::{all_edges, instance_bytes, largest_instance};
use independent::{plain, rules, NO_GOAL};

impl Cases {
    /// A rule that is none beside each question that may come next, of the pair, which
    /// has no family G under any.
    pub fn none_and_more(&mut self) {
        for rule in [0, 3, 255, 1 << 32 | 1, u64::MAX] {
            let given = Given {
                instance: instance_bytes(2, &[(0, 1)], &[0], &[1]),
                m: 1,
                rule,
            };
            let entries = payload_of(&[1, -2, -3]);
            let cases: [(u8, u64, &[u8], usize, Item); 14] = [
                (WRITER, 0, &[], 23, (12, 24)),
                (PRUNED, 0, &[], 27, (12, 28)),
                (CLAUSE, 8, &[], 66, (11, 8)),
                (CLAUSE, u64::MAX, &[], 0, (11, 8)),
                (CLAUSE, 7, &[], 3, (12, 4)),
                (PLAN, 0, &[0, 1, 0], 0, (13, 3)),
                (PLAN, 0, &[0, 2], 0, (17, 1)),
                (PLAN, 0, &[0, 0], 0, (22, 1)),
                (DECODER, 0, &entries, 2, (14, 3)),
                (DECODER, 0, &payload_of(&[1, -2, -3, 4]), 1, (15, 2)),
                (ENCODER, 0, &[0, 1], 3, (16, 4)),
                (ENCODER, 0, &[1, 1], 4, (18, 0)),
                (READER, 0, b"x", 4, (27, 0)),
                (READER, 0, b"s UNKNOWN", 4, (28, 0)),
            ];
            for (kind, number, payload, lent, item) in cases {
                self.two_items(kind, &given, number, payload, lent, [(31, 0), item]);
            }
            // With nothing wrong but the rule.
            self.writer(&given, 24);
            self.clause(&given, 7, 4);
            self.plan(&given, &[0, 1]);
            self.decoder(&given, &[1, -2, -3, 4], 2);
            self.encoder(&given, &[0, 1], 4);
            self.reader(&given, b"s SATISFIABLE\nv 1 -2 -3 4 0\n", 4);
            self.pruned(&given, 28);
            self.sizes(&given);
        }
    }

    /// The largest sizes.
    pub fn largest(&mut self, decoder: bool) {
        let given = Given {
            instance: largest_instance(),
            m: 32,
            rule: 1,
        };
        let plan: Vec<u8> = (0..33).flat_map(|_| 0..16).collect();
        self.writer(&given, WORDS);
        self.writer(&given, WORDS + 1);
        self.floor(&given);
        self.pruned(&given, WORDS);
        self.pruned(&given, WORDS + 1);
        let count = given.clauses();
        for number in [0, 15, 16, 32, 560, count / 2, count - 1, count] {
            self.clause(&given, number, 66);
        }
        // The longest clause, of family F: the middle families end where F begins.
        let f = 16 + 16 + 33 * 16 + 33 * 16 * 2016 + 33 * 64 * 120;
        for lent in [65, 66, 67] {
            self.clause(&given, f + 32 * 16 * 64 - 1, lent);
        }
        self.plan(&given, &plan);
        self.encoder(&given, &plan, 33 * 16 * 64);
        self.encoder(&given, &plan, ENTRIES);
        self.encoder(&given, &plan, ENTRIES + 1);
        if decoder {
            self.decoder(&given, &plain::valuation(64, 16, &plan), 528);
        }
    }

    /// The same under rule 2, where all agents turn in a ring.
    pub fn largest_turning(&mut self, decoder: bool) {
        let given = Given {
            instance: largest_instance(),
            m: 32,
            rule: 2,
        };
        self.writer(&given, WORDS);
        self.pruned(&given, WORDS);
        // Family G: its first clauses, those of the second edge, of the last edge of step 0, and of step 1.
        let g = 16 + 16 + 33 * 16 + 33 * 16 * 2016 + 33 * 64 * 120 + 32 * 16 * 64;
        let step = 2016 * 240;
        let count = given.clauses();
        assert_eq!(count, g + 32 * step);
        for number in [0, 1, 14, 15, 239, 240, step - 1, step, 31 * step + 777] {
            self.clause(&given, g + number, 66);
        }
        for number in [g - 1, count - 1, count, u64::MAX] {
            self.clause(&given, number, 66);
        }
        for lent in [4, 5, 6] {
            self.clause(&given, count - 1, lent);
        }
        // They are on their goals, where they began, at time 32.
        let plan: Vec<u8> = (0..33)
            .flat_map(|t| (0..16).map(move |a| (a + t) % 16))
            .collect();
        assert_eq!(self.plan(&given, &plan), Some((0, 512)));
        self.encoder(&given, &plan, 33 * 16 * 64);
        if decoder {
            self.decoder(&given, &plain::valuation(64, 16, &plan), 528);
        }
        // In the last step the last two exchange instead.
        let mut plan = plan;
        let last = plan.len() - 16;
        plan.copy_within(last - 16..last, last);
        plan.swap(last + 14, last + 15);
        assert_eq!(self.plan(&given, &plan), Some((25, last as u64 + 14)));
    }

    /// Agents that exchange vertices, with the goals where the plan ends: the plan
    /// check tells it, and the decoder in family G.
    pub fn exchanging(&mut self, given: &Given, plan: &[u8]) {
        let parts = Parts::of(&given.instance);
        let Some((instance, plan)) = exchange(&mut self.random, &parts, plan) else {
            return;
        };
        let (n, k, m) = (given.n(), given.k(), given.m);
        let entries = plain::valuation(n, k, &plan);
        for rule in [1, 2] {
            let instance = instance.clone();
            let given = Given { instance, m, rule };
            self.both(&given, &plan);
            self.decoder(&given, &entries, plan.len());
        }
        // More is true than that: one more place of an agent.
        let mut entries = entries;
        let at = self.random.below(entries.len());
        entries[at] = entries[at].abs();
        let given = Given {
            instance,
            m,
            rule: 2,
        };
        self.decoder(&given, &entries, plan.len());
    }

    /// Instances on which the rule matters, with answers known beforehand; all clauses
    /// of the formula under rule 2.
    pub fn worked_rules(&mut self) {
        for worked in rules::worked() {
            for rule in [1, 2] {
                let given = Given {
                    instance: worked.instance.clone(),
                    m: worked.m,
                    rule,
                };
                self.sizes(&given);
                self.writer(&given, given.words());
                self.pruned(&given, given.pruned_words());
                let first = if rule == 2 { 0 } else { given.clauses() - 6 };
                for number in first..=given.clauses() {
                    self.clause(&given, number, 6);
                }
                for (plan, checked, decoded) in worked.plans {
                    let at = rule as usize - 1;
                    assert_eq!(self.plan(&given, plan), Some(checked[at]), "{plan:?}");
                    self.encoder(&given, plan, given.variables());
                    let entries = plain::valuation(given.n(), given.k(), plan);
                    let answer = self.decoder(&given, &entries, plan.len());
                    assert_eq!(answer, Some(decoded[at]), "{plan:?}");
                }
            }
        }
    }

    /// Every row after the starts, for three agents and for four on some maps of four
    /// vertices: rings, files, exchanges, sharings and jumps. Every `step`th.
    pub fn all_steps(&mut self, step: usize) {
        let ring: &[(u8, u8)] = &[(0, 1), (0, 3), (1, 2), (2, 3)];
        let all = all_edges(4);
        let maps = [ring, &all, &ring[1..], &all[..3]];
        let rows: [&[u8]; 4] = [&[0, 1, 2], &[3, 1, 0], &[0, 1, 2, 3], &[2, 0, 3, 1]];
        let mut index = self.random.below(step);
        for (edges, starts) in maps.iter().flat_map(|map| rows.map(|row| (map, row))) {
            let k = starts.len();
            let instance = instance_bytes(4, edges, starts, &vec![NO_GOAL; k]);
            for next in sequences(&[0, 1, 2, 3], k) {
                for rule in [1, 2] {
                    index = (index + 1) % step;
                    if index > 0 {
                        continue;
                    }
                    let instance = instance.clone();
                    let given = Given {
                        instance,
                        m: 1,
                        rule,
                    };
                    let plan = [starts, &next].concat();
                    self.plan(&given, &plan);
                    let entries = plain::valuation(4, k, &plan);
                    self.decoder(&given, &entries, plan.len());
                }
            }
        }
    }
}
