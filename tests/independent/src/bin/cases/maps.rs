//! Cases whose answers are known beforehand, and maps for the floor, family H and the
//! sizes.

use crate::case::{Cases, Given, PRUNED, WORDS, WRITER};
use independent::sample::{instance_bytes, path_edges};
use independent::{costs, floors, free, plain, sizes, NO_GOAL};

impl Cases {
    /// Instances whose floors and families H are known beforehand.
    pub fn worked_floors(&mut self) {
        for (instance, item) in floors::worked() {
            let given = Given {
                instance,
                m: 0,
                rule: 1,
            };
            assert_eq!(self.floor(&given), Some(item), "{:?}", given.instance);
        }
        for (index, (instance, m, literals)) in floors::worked_h().into_iter().enumerate() {
            // Family H is the same under both.
            let rule = 1 + index as u64 % 2;
            let given = Given { instance, m, rule };
            let words = (given.words() + 2 * literals.len()) as u64;
            let accepted = self.pruned(&given, words as usize);
            assert_eq!(accepted, Some((0, 0)), "{:?}", given.instance);
            let refused = self.pruned(&given, words as usize - 1);
            assert_eq!(refused, Some((12, words)), "{:?}", given.instance);
        }
    }

    /// Instances with free agents and answers known beforehand, and every call on
    /// them.
    pub fn worked_free(&mut self) {
        for worked in free::worked() {
            let given = Given {
                instance: worked.instance,
                m: worked.m,
                rule: 1,
            };
            self.sizes(&given);
            self.writer(&given, given.words());
            for number in 0..=given.clauses() {
                self.clause(&given, number, 66);
            }
            self.floor(&given);
            self.pruned(&given, given.pruned_words());
            for (plan, checked, decoded) in worked.plans {
                assert_eq!(self.plan(&given, plan), Some(*checked), "{plan:?}");
                self.encoder(&given, plan, given.variables());
                let entries = plain::valuation(given.n(), given.k(), plan);
                let answer = self.decoder(&given, &entries, plan.len());
                assert_eq!(answer, Some(*decoded), "{plan:?}");
                let second = given.under(2);
                self.plan(&second, plan);
                self.encoder(&second, plan, given.variables());
                self.decoder(&second, &entries, plan.len());
            }
            self.sizes(&given.under(2));
        }
    }

    /// Formulas whose sizes are known beforehand, the largest one among them; the
    /// writers too, as far as there is room.
    pub fn worked_sizes(&mut self) {
        for (instance, m, rule, expected) in sizes::worked() {
            let given = Given { instance, m, rule };
            let sizes = self.sizes(&given);
            for (size, (words, clauses)) in sizes.into_iter().zip(expected) {
                let counts = (size.number, size.second, size.clauses);
                assert_eq!(counts, (0, words, clauses), "{:?}", given.instance);
            }
            let [words, pruned_words] = sizes.map(|size| size.second as usize);
            for (kind, words) in [(WRITER, words), (PRUNED, pruned_words)] {
                for lent in [words - 1, words, words + 1] {
                    if lent <= WORDS {
                        self.put(kind, &given, 0, &[], lent);
                    }
                }
            }
        }
    }

    /// Some map of any size, at any horizon: the formula may be longer than the
    /// slices of the writers here.
    pub fn any_size(&mut self) {
        let n = 1 + self.random.below(64);
        let k = 1 + self.random.below(n.min(16));
        let instance = self.random.mapped(n, k);
        let m = self.random.below(33) as u64;
        let rule = self.random.rule();
        self.sizes(&Given { instance, m, rule });
    }

    /// Some map of up to `most` vertices; whole, and damaged.
    pub fn maps(&mut self, most: usize) {
        let n = 1 + self.random.below(most);
        let agents = if self.random.chance(50) { 3 } else { 16 };
        let k = 1 + self.random.below(n.min(agents));
        let instance = self.random.mapped(n, k);
        let least = plain::floor(&instance).unwrap_or(0);
        // Around the floor, or any.
        let m = match self.random.below(4) {
            0 => self.random.below(33),
            1 => self.random.below(n.min(33)),
            _ => (least + self.random.below(4)).saturating_sub(1).min(32),
        };
        let m = m as u64;
        let rule = self.random.rule();
        let given = Given { instance, m, rule };
        self.floor(&given);
        self.pruning(&given);
        if self.random.chance(20) {
            let mut instance = given.instance;
            self.random.damage(&mut instance);
            let given = Given { instance, m, rule };
            self.floor(&given);
            self.pruned(&given, WORDS);
        }
    }

    /// A path of n vertices at the horizon m: from one end to the other, to
    /// vertices around m and around the end, with an edge closed, from any
    /// vertex to any.
    pub fn path(&mut self, n: u8, m: u64) {
        let near = |v: u64| v.min(u64::from(n) - 1) as u8;
        let (v, w) = (self.random.below(n.into()), self.random.below(n.into()));
        let ends = [
            (0, n - 1),
            (n - 1, 0),
            (0, near(m)),
            (near(m + 1), 0),
            (near(1), near(m)),
            (v as u8, w as u8),
            (w as u8, NO_GOAL),
        ];
        let mut edges = path_edges(n);
        for (start, goal) in ends {
            let instance = instance_bytes(n.into(), &edges, &[start], &[goal]);
            let rule = self.random.rule();
            let given = Given { instance, m, rule };
            self.floor(&given);
            self.pruning(&given);
        }
        if n > 1 {
            edges.remove(self.random.below(edges.len()));
            let instance = instance_bytes(n.into(), &edges, &[v as u8], &[w as u8]);
            let rule = self.random.rule();
            let given = Given { instance, m, rule };
            self.floor(&given);
            self.pruning(&given);
        }
    }

    /// Plans whose costs are known beforehand. What passes under rule 1 passes under 2.
    pub fn costs(&mut self) {
        for (instance, m, plan, cost) in costs::worked() {
            let given = Given {
                instance,
                m,
                rule: 1,
            };
            for given in [given.under(2), given] {
                assert_eq!(self.plan(&given, &plan), Some((0, cost)), "{plan:?}");
            }
        }
    }
}
