//! Whole formulas clause by clause, and every small instance.

use crate::random::mix;
use crate::run::Run;
use crate::said::Asked;
use crate::{CLAUSE, PRUNED, WRITER};
use independent::output::some_text;
use independent::sample::{all_edges, instance_bytes, Generator};
use independent::{is_free, NO_GOAL};
use interface::input::{valuation, Parts};

impl Run {
    /// The formula in an exact slice and every clause in its own, with `short` also in slices too short; the clauses
    /// must make the formula.
    pub fn formula(&mut self, instance: &[u8], m: u64, rule: u64, short: bool) {
        let [size, _] = self.sizes(instance, m, rule);
        let needed = size.second as usize;
        self.write(WRITER, instance, m, rule, 0);
        self.write(WRITER, instance, m, rule, needed - 1);
        let (_, words) = self.write(WRITER, instance, m, rule, needed);
        let mut at = 0;
        for number in 0..size.clauses {
            let rest = &words[at..];
            let length = rest
                .iter()
                .position(|&word| word == 0)
                .map_or(0, |zero| zero + 1);
            if short {
                self.clause(instance, m, rule, number, 0);
                self.clause(instance, m, rule, number, length.saturating_sub(1));
            }
            let (given, clause) = self.clause(instance, m, rule, number, length);
            let whole = given.number == 0 && clause[..] == rest[..length];
            at += length;
            if !whole || (number + 1 == size.clauses && at != words.len()) {
                let asked = Asked {
                    call: CLAUSE,
                    instance,
                    horizon: m,
                    rule,
                    clause: Some(number),
                    ..Asked::default()
                };
                self.fail(&asked, "the clauses do not make the formula");
            }
        }
        self.clause(instance, m, rule, size.clauses, 66);
        self.clause(instance, m, rule, u64::MAX, 66);
    }

    /// All graphs of up to 4 vertices, up to 2 agents, free ones too, m up to 2, under both rules.
    pub fn small(&mut self) {
        self.part = "small";
        self.case = 0;
        for n in 1..=4usize {
            let possible = all_edges(n);
            for graph in 0..1u32 << possible.len() {
                let chosen = |j: &usize| graph >> j & 1 == 1;
                let edges: Vec<(u8, u8)> = (0..possible.len())
                    .filter(chosen)
                    .map(|j| possible[j])
                    .collect();
                for k in 1..=n.min(2) {
                    for starts in rows(n, k).iter().filter(|row| differ(row)) {
                        for goals in goal_rows(n, k) {
                            self.next_case();
                            let instance = instance_bytes(n, &edges, starts, &goals);
                            self.floor(&instance);
                            for rule in [1, 2] {
                                self.small_instance(&instance, rule);
                            }
                        }
                    }
                }
            }
        }
    }

    fn small_instance(&mut self, instance: &[u8], rule: u64) {
        let Parts {
            n, starts, goals, ..
        } = &Parts::of(instance);
        let (n, k) = (*n, starts.len());
        // Beyond every distance too.
        self.pruned(instance, 3 + self.case % 3, rule);
        for m in 0..=2usize {
            let horizon = m as u64;
            self.formula(instance, horizon, rule, starts == goals);
            self.pruned(instance, horizon, rule);
            // Every plan whose first row is the starts.
            let mut plans = vec![starts.to_vec()];
            for _ in 0..m {
                let longer = |plan: &Vec<u8>| {
                    let plan = plan.clone();
                    rows(n, k)
                        .into_iter()
                        .map(move |row| [&plan[..], &row].concat())
                };
                plans = plans.iter().flat_map(longer).collect();
            }
            let count = n * k * (m + 1);
            for plan in &plans {
                self.plan(instance, horizon, rule, plan, count);
                // Only families E to G can be at fault.
                let ends = plan[m * k..].iter().zip(goals);
                if ends.clone().all(|(v, &goal)| is_free(goal) || *v == goal) {
                    let entries = valuation(n, k, plan);
                    self.entries(instance, horizon, rule, &entries, k * (m + 1));
                }
            }
            // Texts for the last plan.
            let mut g = Generator::new(mix(self.seed, 3 * self.case + horizon));
            let entries = valuation(n, k, &plans[plans.len() - 1]);
            for length in [count, count, count, count + 1] {
                let text = some_text(&mut g, &entries);
                self.text(instance, horizon, rule, &text, length);
            }
            // Every valuation of up to 8 variables.
            if count <= 8 {
                for signs in 0..1u32 << count {
                    let entry = |i: usize| (i as i32 + 1) * (1 - 2 * (signs >> i & 1) as i32);
                    let entries: Vec<i32> = (0..count).map(entry).collect();
                    self.entries(instance, horizon, rule, &entries, k * (m + 1));
                }
            }
        }
        self.write(WRITER, instance, 33, rule, 4);
        self.write(PRUNED, instance, 33, rule, 4);
    }
}

/// All rows of `k` vertices below `n`, k 1 or 2.
pub fn rows(n: usize, k: usize) -> Vec<Vec<u8>> {
    let n = n as u8;
    if k == 1 {
        (0..n).map(|v| vec![v]).collect()
    } else {
        (0..n)
            .flat_map(|v| (0..n).map(move |w| vec![v, w]))
            .collect()
    }
}

/// All goals of `k` agents, 1 or 2: vertices below `n` that differ, and none.
pub fn goal_rows(n: usize, k: usize) -> Vec<Vec<u8>> {
    let goal = |v: u8| if usize::from(v) < n { v } else { NO_GOAL };
    let all = rows(n + 1, k).into_iter();
    let goals = all.map(|row| row.into_iter().map(goal).collect());
    goals.filter(|row: &Vec<u8>| differ(row)).collect()
}

/// Are these vertices, of 1 or 2 agents, all different? Those without one are.
pub fn differ(row: &[u8]) -> bool {
    row.len() == 1 || is_free(row[0]) || row[0] != row[1]
}
