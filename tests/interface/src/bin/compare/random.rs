//! Random cases.

use crate::run::Run;
use crate::tally_calls::Record;
use crate::{PRUNED, WRITER};
use independent::closing::exchange;
use independent::histories::Submitted;
use independent::output::{padded, some_text};
use independent::records::some_record;
use independent::sample::Generator;
use independent::LONGEST_TEXT;
use interface::input::Parts;
use interface::input::{long_horizon, malform, some_entries, some_length, some_plan, valuation};

impl Run {
    pub fn random(&mut self, first: u64, count: u64) {
        self.part = "random";
        for case in first..first + count {
            self.case = case;
            let mut g = Generator::new(mix(self.seed, case));
            self.before = 1 + g.below(16);
            self.random_case(&mut g);
        }
    }

    fn random_case(&mut self, g: &mut Generator) {
        let (n, k, m) = sizes(g);
        let percent = [0, 20, 40, 60, 80, 100][g.below(6)];
        let walked = g.rule();
        let (mut instance, plan) = match g.below(2) {
            0 => g.walk(n, k, percent, m, walked),
            _ => g.waiting_walk(n, k, percent, m, walked),
        };
        if g.chance(10) {
            // Goals that the walk misses.
            let mut parts = Parts::of(&instance);
            parts.goals = g.vertices(n, k);
            instance = parts.bytes();
        }
        let parts = Parts::of(&instance);
        let mut horizon = m as u64;
        // Now and then the other rule, or none.
        let mut rule = if g.chance(20) { 3 - walked } else { walked };
        match g.below(20) {
            0 => horizon = long_horizon(g),
            1 => horizon = [0, 32, 33, u64::MAX][g.below(4)],
            2..=6 => {
                let kind = 1 + g.below(14);
                instance = malform(g, kind, &instance);
                if g.chance(20) && instance.len() >= 4 {
                    // A second defect, if the first left the instance readable.
                    g.damage(&mut instance);
                }
                if g.chance(20) {
                    horizon = long_horizon(g);
                }
                if g.chance(20) {
                    rule = g.wrong_rule();
                }
            }
            7 => {
                rule = match g.below(4) {
                    0 => g.draw(),
                    _ => g.wrong_rule(),
                };
                if g.chance(10) {
                    horizon = long_horizon(g);
                }
            }
            _ => {}
        }

        let [words, pruned] = self
            .sizes(&instance, horizon, rule)
            .map(|size| match size.number {
                0 => size.second as usize,
                _ => 24,
            });
        let small = words < 200_000 || g.chance(5);
        for _ in 0..2 {
            let length = some_length(g, words);
            if small || length < words {
                self.write(WRITER, &instance, horizon, rule, length);
            }
        }
        self.floor(&instance);
        let length = match g.below(6) {
            0 => words,
            _ => some_length(g, pruned),
        };
        if small || length < pruned {
            self.write(PRUNED, &instance, horizon, rule, length);
        }
        self.some_map(g, n, k, walked);
        let count = independent::clause(&instance, horizon, rule, u64::MAX, &mut []).second;
        for _ in 0..5 {
            let number = match g.below(12) {
                0 => 0,
                1 => count.wrapping_sub(1),
                2 => count,
                3 => u64::MAX,
                4 => (1 << 32) + g.below(count as usize + 1) as u64,
                5 => count + g.below(300) as u64,
                6 | 7 => {
                    // Next to where a family begins.
                    let counts = parts.clause_counts(m, walked);
                    let from: u64 = counts[..1 + g.below(6)].iter().sum();
                    (from + g.below(3) as u64).wrapping_sub(1)
                }
                _ => g.below(count as usize + 1) as u64,
            };
            let needed = independent::clause(&instance, horizon, rule, number, &mut []);
            let words = match needed.number {
                12 => needed.second as usize,
                _ => 4,
            };
            let length = some_length(g, words);
            self.clause(&instance, horizon, rule, number, length);
        }
        for _ in 0..3 {
            let plan = some_plan(g, &parts, m, &plan);
            let length = some_length(g, n * k * (m + 1));
            self.plan(&instance, horizon, rule, &plan, length);
            let entries = some_entries(g, &parts, m, &whole_plan(&parts, m, &plan));
            let length = some_length(g, k * (m + 1));
            self.entries(&instance, horizon, rule, &entries, length);
        }
        let entries = some_entries(g, &parts, m, &plan);
        self.entries(&instance, horizon, rule, &entries, k * (m + 1));
        if g.chance(20) {
            self.exchanged(g, &parts, &plan);
        }
        let entries = valuation(n, k, &plan);
        for _ in 0..3 {
            let mut text = some_text(g, &entries);
            if g.below(1000) == 0 {
                let length = LONGEST_TEXT - 1 + g.below(3);
                text = padded(g, &text, length);
            }
            let length = some_length(g, entries.len());
            self.text(&instance, horizon, rule, &text, length);
        }
        let mut record = Record::new(some_record(g));
        for _ in 0..3 {
            let submitted = Submitted {
                instance: instance.clone(),
                m: horizon,
                rule,
                plan: some_plan(g, &parts, m, &plan),
            };
            self.tally(&submitted, &mut record);
        }
    }

    /// Agents that exchange vertices, with the goals where the plan ends: the check tells it, and the decoder in family G.
    pub fn exchanged(&mut self, g: &mut Generator, parts: &Parts, plan: &[u8]) {
        let Some((instance, plan)) = exchange(g, parts, plan) else {
            return;
        };
        let (k, m) = (parts.k(), (plan.len() / parts.k() - 1) as u64);
        let entries = valuation(parts.n, k, &plan);
        for rule in [1, 2] {
            let checked = self.plan(&instance, m, rule, &plan, entries.len());
            // Under rule 1 an agent may have followed another before.
            assert!(checked.number == 25 || rule == 1 && checked.number == 26);
            let (decoded, _) = self.decode(&instance, m, rule, &entries, plan.len());
            assert_eq!(decoded.number, 24);
        }
    }

    /// A map of some kind of this size: the sizes at any horizon, the floor, and the pruned writer at a horizon around it,
    /// or any.
    fn some_map(&mut self, g: &mut Generator, n: usize, k: usize, rule: u64) {
        let instance = g.mapped(n, k);
        self.sizes(&instance, g.below(33) as u64, rule);
        let answer = self.floor(&instance);
        let most = if n * k > 16 { 4 } else { 33 };
        let m = match (answer.number, g.below(4)) {
            (0, 1..) => (answer.second + g.below(3) as u64).saturating_sub(1),
            _ => g.below(most) as u64,
        };
        let m = m.min(most as u64 - 1);
        let [_, size] = self.sizes(&instance, m, rule);
        let length = some_length(g, size.second as usize);
        self.write(PRUNED, &instance, m, rule, length);
    }
}

/// The plan, if a valuation can name it; else one in which all agents stay.
fn whole_plan(parts: &Parts, m: usize, plan: &[u8]) -> Vec<u8> {
    let fits = plan.len() == parts.k() * (m + 1);
    if fits && plan.iter().all(|&v| usize::from(v) < parts.n) {
        plan.to_vec()
    } else {
        parts.starts.repeat(m + 1)
    }
}

/// n, k and m; most are small.
fn sizes(g: &mut Generator) -> (usize, usize, usize) {
    let n = match g.below(40) {
        0 => 1,
        1..=27 => 1 + g.below(7),
        28..=37 => 1 + g.below(16),
        38 => 1 + g.below(64),
        _ => 63 + g.below(2),
    };
    let k = match g.below(10) {
        0 => n.min(16),
        1..=7 => 1 + g.below(n.min(4)),
        _ => 1 + g.below(n.min(16)),
    };
    let m = match g.below(20) {
        0 | 1 => 0,
        2..=15 => g.below(5),
        16 | 17 => g.below(12),
        _ if n > 16 => g.below(3),
        18 => 32,
        _ => g.below(33),
    };
    (n, k, m)
}

/// One state for each seed and case.
pub fn mix(seed: u64, case: u64) -> u64 {
    let mut z = seed
        .wrapping_mul(0xD134_2543_DE82_EF95)
        .wrapping_add((case + 1).wrapping_mul(0x9E37_79B9_7F4A_7C15));
    z = (z ^ z >> 30).wrapping_mul(0xBF58_476D_1CE4_E5B9);
    z = (z ^ z >> 27).wrapping_mul(0x94D0_49BB_1331_11EB);
    z ^ z >> 31
}
