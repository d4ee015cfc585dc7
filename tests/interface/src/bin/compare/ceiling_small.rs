//! Every small instance with every ceiling.

use crate::ceiling::Seen;
use crate::ceiling_calls::Ceiled;
use crate::run::Run;
use crate::small::{differ, goal_rows, rows};
use independent::output::output;
use independent::plain;
use independent::plain_ceiling::valuation;
use independent::reversing::with_all_goals;
use independent::sample::{all_edges, instance_bytes};

impl Run {
    /// All graphs of up to 3 vertices, up to 2 agents, free ones too, m up to 3, every c up to m·k + 1, under both rules. At
    /// m 3 the two agents on three vertices go to every third goal row alone.
    pub fn small_ceilings(&mut self, seen: &mut Seen) {
        self.part = "small ceilings";
        self.case = 0;
        for (n, k) in [(1, 1), (2, 1), (2, 2), (3, 1), (3, 2)] {
            let possible = all_edges(n);
            for graph in 0..1u32 << possible.len() {
                let chosen = (0..possible.len()).filter(|j| graph >> j & 1 == 1);
                let edges: Vec<(u8, u8)> = chosen.map(|j| possible[j]).collect();
                for starts in rows(n, k).iter().filter(|row| differ(row)) {
                    for goals in goal_rows(n, k) {
                        self.next_case();
                        let instance = instance_bytes(n, &edges, starts, &goals);
                        let third = self.case.is_multiple_of(3);
                        let most = if n == 3 && k == 2 && !third { 2 } else { 3 };
                        for (m, rule) in (0..=most).flat_map(|m| [(m, 1), (m, 2)]) {
                            self.small_ceiling(&instance, m, rule, seen);
                        }
                    }
                }
            }
        }
    }

    /// Every walk from the starts, wherever it ends. Some plan passes within c exactly where some valuation of a walk is
    /// decoded.
    fn small_ceiling(&mut self, instance: &[u8], m: u64, rule: u64, seen: &mut Seen) {
        let [n, k] = [0, 1].map(|size| usize::from(instance[size]));
        let mut walks = vec![instance[instance.len() - 2 * k..][..k].to_vec()];
        for t in 1..=m {
            let mut longer = Vec::new();
            for walk in &walks {
                for row in rows(n, k) {
                    let walk = [&walk[..], &row].concat();
                    let there = with_all_goals(instance, &walk);
                    if plain::passes(&there, t, rule, &walk) {
                        longer.push(walk);
                    }
                }
            }
            walks = longer;
        }
        for c in 0..=m * k as u64 + 1 {
            let given = Ceiled {
                instance,
                m,
                rule,
                c,
            };
            let needed = self.ceiling_size(given).second as usize;
            for length in [needed - 1, needed, needed + 2] {
                self.write_ceiling(given, length);
            }
            seen.formulas += 1;
            let count = given.variables();
            for (walk, turn) in walks.iter().zip(0..) {
                let length = count + [0, 0, 1, 3][(turn + c as usize) % 4];
                let encoded = self.ceiling_way(given, walk, length);
                seen.within += u64::from(encoded.number == 0);
                seen.dearer += u64::from(encoded.number == 33);
                let entries = valuation(n, k, c, walk);
                let (decoded, _) = self.decode_ceiling(given, &entries, given.plan_length());
                assert_eq!(decoded.number == 0, encoded.number == 0);
                seen.decoded += u64::from(decoded.number == 0);
                if turn == 0 {
                    self.encode_ceiling(given, walk, count - 1);
                    self.decode_ceiling(given, &entries, given.plan_length() - 1);
                    self.decode_ceiling(given, &entries[..count - 1], given.plan_length());
                    let text = output(&entries, 60);
                    for length in [count - 1, count, count + 4] {
                        self.read_ceiling(given, &text, length);
                    }
                    // Each entry other.
                    for i in 0..count {
                        let mut changed = entries.clone();
                        changed[i] = -changed[i];
                        self.decode_ceiling(given, &changed, given.plan_length());
                    }
                }
            }
        }
    }
}
