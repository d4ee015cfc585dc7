//! All small instances with all ceilings.

use crate::case::{Cases, Given};
use crate::small::{instances, sequences};
use independent::output::output;
use independent::plain;
use independent::plain_ceiling::valuation;
use independent::reversing::with_all_goals;

impl Cases {
    /// All instances on up to 3 vertices with up to 2 agents and m up to 2, and every fifth
    /// at m 3, with every ceiling up to m·k + 1: size and writer; encoder and decoder for
    /// every walk from the starts.
    pub fn all_ceilings(&mut self) {
        for (n, k) in [(1, 1), (2, 1), (2, 2), (3, 1), (3, 2)] {
            for m in 0..=3 {
                let step = if m < 3 { 1 } else { 5 };
                let from = self.random.below(step);
                for given in instances(n, k, m).iter().skip(from).step_by(step) {
                    self.all_ceilings_of(given);
                }
            }
        }
    }

    fn all_ceilings_of(&mut self, given: &Given) {
        let (n, k) = (given.n(), given.k());
        let vertices: Vec<u8> = (0..n as u8).collect();
        let mut walks = vec![given.starts().to_vec()];
        for t in 1..=given.m {
            let mut longer = Vec::new();
            for (walk, row) in walks.iter().flat_map(|walk| {
                sequences(&vertices, k)
                    .into_iter()
                    .map(move |row| (walk, row))
            }) {
                let walk = [&walk[..], &row].concat();
                let there = with_all_goals(&given.instance, &walk);
                if plain::passes(&there, t, given.rule, &walk) {
                    longer.push(walk);
                }
            }
            walks = longer;
        }
        for c in 0..=given.m * k as u64 + 1 {
            self.ceiling_size(given, c);
            let short = usize::from(self.random.chance(10));
            self.ceiling_writer(given, c, given.all_words(c) - short);
            let count = given.all_variables(c);
            for walk in &walks {
                let short = usize::from(self.random.chance(5));
                self.ceiling_encoder(given, c, walk, count - short);
                let entries = valuation(n, k, c, walk);
                self.ceiling_decoder(given, c, &entries, walk.len());
            }
            let entries = valuation(n, k, c, &walks[walks.len() - 1]);
            self.ceiling_reader(given, c, &output(&entries, 40), count);
        }
    }

    /// All sign patterns of some with at most 12 variables.
    pub fn all_ceiling_valuations(&mut self) {
        for (n, k, m, step) in [
            (1, 1, 1, 1),
            (1, 1, 2, 1),
            (1, 1, 3, 2),
            (2, 1, 1, 1),
            (2, 1, 2, 5),
        ] {
            let from = self.random.below(step);
            for given in instances(n, k, m).iter().skip(from).step_by(step) {
                for c in 0..=m * k as u64 + 1 {
                    let count = given.all_variables(c);
                    for signs in 0..1i32 << count {
                        let entry = |i: usize| (i as i32 + 1) * (1 - 2 * (signs >> i & 1));
                        let entries: Vec<i32> = (0..count).map(entry).collect();
                        self.ceiling_decoder(given, c, &entries, given.plan_length());
                    }
                }
            }
        }
    }
}
