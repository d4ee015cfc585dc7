//! Known answers, and maps.

use crate::run::Run;
use crate::said::Said;
use crate::{PRUNED, WRITER};
use independent::output::{worked, WORKED};
use independent::sample::{grid_edges, instance_bytes, path_edges};
use independent::{costs, floors, sizes};

impl Run {
    /// Texts with known answers, for the pair at m 1, plans with known costs, maps with known floors and families H, and
    /// formulas with known sizes.
    pub fn worked(&mut self) {
        self.part = "worked";
        let pair = [2, 1, 1, 0, 0, 1, 0, 1];
        self.case = 0;
        for (text, (number, second)) in worked() {
            self.next_case();
            for rule in [1, 2] {
                let (answer, entries) = self.read(&pair, 1, rule, &text, 4);
                assert_eq!(answer, Said::new(number, second, 0));
                assert!(number != 0 || entries == WORKED);
                self.text(&pair, 1, rule, &text, 3);
                self.text(&pair, 1, rule, &text, 5);
            }
        }
        // What passes under rule 1 passes under rule 2 at the same cost.
        for (instance, m, plan, cost) in costs::worked() {
            self.case += 1;
            let count = usize::from(instance[0]) * plan.len();
            for rule in [1, 2] {
                let checked = self.plan(&instance, m, rule, &plan, count);
                assert_eq!(checked, Said::new(0, cost, 0));
            }
        }
        for (instance, (number, second)) in floors::worked() {
            self.case += 1;
            assert_eq!(self.floor(&instance), Said::new(number, second, 0));
        }
        for (instance, m, literals) in floors::worked_h() {
            self.case += 1;
            for rule in [1, 2] {
                let first = self.sizes(&instance, m, rule)[0].second as usize;
                let words = first + 2 * literals.len();
                let (answer, written) = self.write(PRUNED, &instance, m, rule, words + 1);
                assert_eq!(answer, Said::new(0, 0, 0));
                let family_h = written[first..words].iter().step_by(2);
                assert!(family_h.eq(&literals));
                self.pruned(&instance, m, rule);
            }
        }
        for (instance, m, rule, expected) in sizes::worked() {
            self.case += 1;
            let expected = expected.map(|(words, clauses)| Said::new(0, words, clauses));
            assert_eq!(self.sizes(&instance, m, rule), expected);
            for (call, size) in [WRITER, PRUNED].into_iter().zip(expected) {
                let words = size.second as usize;
                // The largest formula under rule 2 is another part's.
                if words < 10_000_000 {
                    for length in [words - 1, words, words + 1] {
                        self.write(call, &instance, m, rule, length);
                    }
                }
                self.write(call, &instance, m, rule, 0);
            }
        }
    }

    /// Long paths, in one part and in two, and grids, at all horizons around their floors and some others.
    pub fn maps(&mut self) {
        self.part = "maps";
        self.case = 0;
        for n in 1..=64u8 {
            let mut edges = path_edges(n);
            let last = n - 1;
            for closed in [false, true] {
                for (start, goal) in [(0, last), (last, 0), (last / 3, last), (last / 2, last / 2)]
                {
                    self.next_case();
                    let instance = instance_bytes(n.into(), &edges, &[start], &[goal]);
                    self.floor(&instance);
                    let length = u64::from(start.abs_diff(goal));
                    for m in [0, length.saturating_sub(1), length, length + 1] {
                        // Of the largest formulas some are enough.
                        if m < 16 || m <= 32 && n % 8 <= 2 {
                            self.pruned(&instance, m, 1 + self.case % 2);
                        }
                    }
                }
                if closed || edges.is_empty() {
                    break;
                }
                edges.remove(usize::from(last / 2));
            }
        }
        for side in 1..=8u8 {
            let last = side * side - 1;
            let edges = grid_edges(side);
            for (start, goal) in [(0, last), (side - 1, last + 1 - side), (last / 2, 0)] {
                self.case += 1;
                let instance = instance_bytes(usize::from(last) + 1, &edges, &[start], &[goal]);
                self.floor(&instance);
                for m in [0, 1, 2 * u64::from(side) - 2, 15] {
                    self.pruned(&instance, m, 1);
                    self.pruned(&instance, m, 2);
                }
            }
        }
    }
}
