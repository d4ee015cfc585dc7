//! Cases of the calls with a ceiling.

use crate::case::{
    item, payload_of, Cases, Given, CEILING_DECODER, CEILING_ENCODER, CEILING_READER, CEILING_SIZE,
    CEILING_WRITER, WORDS,
};
use crate::ceilings_twice::WRONG_CEILINGS;
use independent::output::{output, some_text};
use independent::parts::malform;
use independent::plain_ceiling::valuation;
use independent::questions::Item;
use independent::sample::{instance_bytes, largest_instance, path_edges};
use independent::{plain, worked_ceiling, NO_GOAL};

impl Cases {
    pub fn ceiling_size(&mut self, given: &Given, c: u64) {
        self.put(CEILING_SIZE, given, c, &[], 0);
    }

    pub fn ceiling_writer(&mut self, given: &Given, c: u64, lent: usize) {
        self.put(CEILING_WRITER, given, c, &[], lent.min(WORDS));
    }

    pub fn ceiling_decoder(
        &mut self,
        given: &Given,
        c: u64,
        entries: &[i32],
        lent: usize,
    ) -> Option<Item> {
        let payload = payload_of(entries);
        self.put(CEILING_DECODER, given, c, &payload, lent)
            .map(item)
    }

    pub fn ceiling_encoder(
        &mut self,
        given: &Given,
        c: u64,
        plan: &[u8],
        lent: usize,
    ) -> Option<Item> {
        self.put(CEILING_ENCODER, given, c, plan, lent).map(item)
    }

    pub fn ceiling_reader(&mut self, given: &Given, c: u64, text: &[u8], lent: usize) {
        self.put(CEILING_READER, given, c, text, lent);
    }

    /// Formulas, sizes and plans that are worked out by hand.
    pub fn worked_ceilings(&mut self) {
        for worked in worked_ceiling::worked() {
            let given = Given {
                instance: worked.instance.clone(),
                m: worked.m,
                rule: 1,
            };
            for given in [given.under(2), given] {
                let c = worked.c;
                self.ceiling_size(&given, c);
                let words = given.all_words(c);
                self.ceiling_writer(&given, c, words);
                self.ceiling_writer(&given, c, words - 1);
                assert_eq!(given.all_variables(c) as u64, worked.variables);
            }
        }
        for (instance, m, rule, c, _) in worked_ceiling::sized() {
            let given = Given { instance, m, rule };
            self.ceiling_size(&given, c);
            self.ceiling_writer(&given, c, 0);
        }
        for (index, encoded) in worked_ceiling::encoded().into_iter().enumerate() {
            let (instance, m, c, plan, answer, _) = encoded;
            let rule = 1 + index as u64 % 2;
            let given = Given { instance, m, rule };
            let count = given.all_variables(c);
            let encoded = self.ceiling_encoder(&given, c, plan, count + 1);
            assert_eq!(encoded, Some(answer));
            self.ceiling_encoder(&given, c, plan, count - 1);
            let (n, k) = (given.n(), given.k());
            let entries = valuation(n, k, c, plan);
            let decoded = self.ceiling_decoder(&given, c, &entries, plan.len() + 1);
            assert_eq!(decoded.map(|item| item.0 == 0), Some(answer.0 == 0));
            self.ceiling_reader(&given, c, &output(&entries, 30), count);
            // Each entry other, by turns.
            for i in (index % 2..count).step_by(2) {
                let mut entries = entries.clone();
                entries[i] = -entries[i];
                self.ceiling_decoder(&given, c, &entries, plan.len());
            }
        }
    }

    /// Ceilings around m·k and around 128 at the horizons 0, 1 and 32, of one agent and of
    /// two, one of them free.
    pub fn ceiling_edges(&mut self) {
        let one = instance_bytes(2, &path_edges(2), &[0], &[1]);
        let two = instance_bytes(3, &path_edges(3), &[0, 2], &[1, NO_GOAL]);
        for (instance, m) in [&one, &two]
            .into_iter()
            .flat_map(|x| [0, 1, 32].map(|m| (x, m)))
        {
            let rule = self.random.rule();
            let given = Given {
                instance: instance.clone(),
                m,
                rule,
            };
            let (n, k) = (given.n(), given.k());
            let inputs = m * k as u64;
            // Agent 0 waits so long before it moves; the other stays.
            let plan = |waits: u64| -> Vec<u8> {
                let at = |t: u64| if t > waits { 1 } else { 0 };
                let row = |t: u64| [at(t), 2].into_iter().take(k);
                (0..=m).flat_map(row).collect()
            };
            let edges = [0, 1, inputs.saturating_sub(1), inputs, inputs + 1, 128];
            let wrong = [129, 1 << 32, u64::MAX];
            let mut all: Vec<u64> = edges.into_iter().chain(wrong).collect();
            all.sort_unstable();
            all.dedup();
            for c in all {
                self.ceiling_size(&given, c);
                if c > 128 {
                    self.ceiling_writer(&given, c, 100);
                    self.ceiling_decoder(&given, c, &[1, -2, -3, 4], 9);
                    self.ceiling_encoder(&given, c, &plan(0), 99);
                    self.ceiling_reader(&given, c, b"s UNKNOWN", 99);
                    continue;
                }
                let words = given.all_words(c);
                for lent in [words, words - 1, given.words()] {
                    self.ceiling_writer(&given, c, lent);
                }
                let count = given.all_variables(c);
                let near = [c.wrapping_sub(1), c, c.wrapping_sub(2)];
                for waits in near.into_iter().filter(|&waits| waits < m) {
                    self.ceiling_encoder(&given, c, &plan(waits), count);
                }
                self.ceiling_encoder(&given, c, &plan(0), given.variables());
                if m == 32 && ![1, inputs, inputs - 1].contains(&c) {
                    continue;
                }
                let plan = plan(c.saturating_sub(1));
                let mut entries = valuation(n, k, c, &plan);
                self.ceiling_decoder(&given, c, &entries, plan.len());
                self.ceiling_decoder(&given, c, &entries[..given.variables()], plan.len());
                self.ceiling_reader(&given, c, &output(&entries, 78), count);
                let last = entries.len() - 1;
                entries[last] = -entries[last];
                self.ceiling_decoder(&given, c, &entries, plan.len());
                self.ceiling_reader(&given, c, &output(&entries[..last], 78), count);
            }
        }
    }

    /// The largest sizes, where the steps of all agents make just the highest ceiling.
    pub fn largest_ceiling(&mut self) {
        let instance = [&largest_instance()[..4_052], &[NO_GOAL; 16]].concat();
        for (rule, steps) in [(2, 8), (2, 9)] {
            let given = Given {
                instance: instance.clone(),
                m: 32,
                rule,
            };
            self.ceiling_size(&given, 128);
            self.ceiling_writer(&given, 128, WORDS);
            let at = |t: usize| (0..16).map(move |a| ((a + t.min(steps)) % 16) as u8);
            let plan: Vec<u8> = (0..33).flat_map(at).collect();
            for lent in [38_274, 38_275, 38_276] {
                self.ceiling_encoder(&given, 128, &plan, lent);
            }
            let entries = valuation(64, 16, 128, &plan);
            self.ceiling_decoder(&given, 128, &entries, 528);
            self.ceiling_reader(&given, 128, &output(&entries, 78), 38_275);
        }
    }

    /// A walk on up to `most` vertices, with a ceiling around its cost: whole and damaged.
    pub fn ceiled(&mut self, most: usize) {
        let n = 2 + self.random.below(most - 1);
        let k = 1 + self.random.below(n.min(1 + most / 3));
        let m = self.random.below(1 + most);
        let rule = self.random.rule();
        let (instance, plan) = match self.random.below(3) {
            0 => self.random.walk(n, k, 60, m, rule),
            _ => self.random.waiting_walk(n, k, 80, m, rule),
        };
        let cost = plain::cost(&instance, m as u64, &plan) as u64;
        let m = m as u64;
        let given = Given { instance, m, rule };
        let near = [cost.saturating_sub(1), cost, cost, cost + 1];
        let any = self.random.below(m as usize * k + 3) as u64;
        for c in [near[self.random.below(4)], any] {
            let c = c.min(128);
            self.ceiling_size(&given, c);
            let words = given.all_words(c);
            let lent = match self.random.below(4) {
                0 => words - 1,
                1 => words + 2,
                _ => words,
            };
            self.ceiling_writer(&given, c, lent);
            let count = given.all_variables(c);
            let lent = count - usize::from(self.random.chance(10));
            self.ceiling_encoder(&given, c, &plan, lent);
            let mut damaged = plan.clone();
            let at = self.random.below(plan.len());
            damaged[at] = self.random.below(n + 1) as u8;
            self.ceiling_encoder(&given, c, &damaged, count);
            self.ceiling_encoder(&given.under(3 - rule), c, &plan, count);
            let entries = valuation(n, k, c, &plan);
            let lent = match self.random.below(8) {
                0 => plan.len() - 1,
                1 => plan.len() + 2,
                _ => plan.len(),
            };
            self.ceiling_decoder(&given, c, &entries, lent);
            let mut damaged = entries.clone();
            for _ in 0..1 + self.random.below(2) {
                // One of the added, if there are some, or any.
                let base = given.variables() % count;
                let from = if self.random.chance(70) { base } else { 0 };
                let at = from + self.random.below(count - from);
                damaged[at] = -damaged[at];
            }
            self.ceiling_decoder(&given, c, &damaged, plan.len());
            let mut damaged = entries.clone();
            let at = self.random.below(count);
            damaged[at] = [0, i32::MIN, i32::MAX, count as i32][self.random.below(4)];
            self.ceiling_decoder(&given, c, &damaged, plan.len());
            let text = some_text(&mut self.random, &entries);
            self.ceiling_reader(&given, c, &text, count);
        }
    }

    /// What is most likely refused.
    pub fn ceiling_malformed(&mut self) {
        let n = 2 + self.random.below(6);
        let k = 1 + self.random.below(n.min(3));
        let mut instance = self.random.mapped(n, k);
        let kind = self.random.below(13);
        instance = malform(&mut self.random, kind, &instance);
        let m = [0, 1, 32, 33, 1 << 32, u64::MAX][self.random.below(6)];
        let rule = match self.random.chance(30) {
            true => self.random.wrong_rule(),
            false => self.random.rule(),
        };
        let c = match self.random.chance(40) {
            true => WRONG_CEILINGS[self.random.below(6)],
            false => self.random.below(129) as u64,
        };
        let given = Given { instance, m, rule };
        self.ceiling_size(&given, c);
        self.ceiling_writer(&given, c, 5);
        self.ceiling_decoder(&given, c, &[1, -2], 4);
        self.ceiling_encoder(&given, c, &[0, 1, 0], 4);
        self.ceiling_reader(&given, c, b"s SATISFIABLE\nv 1 -2 0\n", 4);
    }
}
