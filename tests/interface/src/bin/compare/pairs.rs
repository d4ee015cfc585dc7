//! Every pair of a block, and two faults at once.

use crate::run::Run;
use crate::said::{Asked, Said};
use crate::{CLAUSE, DECODER};
use independent::plain;
use independent::sample::{instance_bytes, path_edges};
use interface::input::{valuation, Parts};

impl Run {
    /// Every pair of a block of family D for every n, and of family E for every k, against the list of all clauses. Gives
    /// how many of these clauses 24 was to name. Both families are the same under either rule.
    pub fn pairs(&mut self) -> usize {
        self.part = "pairs";
        self.case = 0;
        // The table of families leaves them out: other cases must come to D and E too.
        let table = (self.given, self.falsified);
        let mut named = 0;
        for rule in [1, 2] {
            for n in 1..=64 {
                named += self.vertex_pairs(n, rule);
            }
            for k in 1..=16 {
                for n in [k, 64] {
                    named += self.agent_pairs(n, k, rule);
                }
            }
        }
        (self.given, self.falsified) = table;
        named
    }

    /// The first and the last block of family D: of agent 0 at time 0, and of agent 1 at time m, 1. Both agents stay at
    /// the vertices of the pair, and one of them is at the other's too.
    fn vertex_pairs(&mut self, n: usize, rule: u64) -> usize {
        let m = 1;
        let edges = path_edges(n as u8);
        let ends: Vec<u8> = (0..n.min(2) as u8).collect();
        let instance = instance_bytes(n, &edges, &ends, &ends);
        let blocks = [(0, 0), (m, ends.len() - 1)];
        let mut named = 0;
        // Other starts and goals leave family D and its numbers as they are.
        for (number, clause) in listed(&instance, m, rule, 3) {
            let pair = variables(&clause);
            let [(t, a, v), (_, _, w)] = pair.map(|x| plain::time_agent_vertex(n, m, x));
            if !blocks.contains(&(t, a)) {
                continue;
            }
            let ends = [v as u8, w as u8];
            let instance = instance_bytes(n, &edges, &ends, &ends);
            let mut entries = valuation(n, ends.len(), &ends.repeat(m + 1));
            for x in pair {
                entries[x as usize - 1] = x;
            }
            self.pair(&instance, m as u64, rule, number, &clause, Some(&entries));
            named += 1;
        }
        assert_eq!(named, n * (n - 1), "pairs in two blocks, n {n}");
        named
    }

    /// The first and the last block of family E at m 2, and the first and the last of time 1. At times 0 and m families
    /// A, B and D keep agents apart, so 24 can name those of time 1 only.
    fn agent_pairs(&mut self, n: usize, k: usize, rule: u64) -> usize {
        let m = 2;
        let ends: Vec<u8> = (0..k as u8).collect();
        let instance = instance_bytes(n, &path_edges(n as u8), &ends, &ends);
        let [mut asked, mut named] = [0, 0];
        for (number, clause) in listed(&instance, m, rule, 4) {
            let pair = variables(&clause);
            let [(t, a, v), (_, b, _)] = pair.map(|x| plain::time_agent_vertex(n, m, x));
            if !(v == 0 && t < m || v == n - 1 && t > 0) {
                continue;
            }
            let entries = (t == 1).then(|| {
                // The others are elsewhere, each by itself.
                let mut elsewhere = (0..n as u8).filter(|&w| usize::from(w) != v);
                let row = (0..k).map(|agent| match [a, b].contains(&agent) {
                    true => v as u8,
                    false => elsewhere.next().expect("n is k or more"),
                });
                let row: Vec<u8> = row.collect();
                valuation(n, k, &[&ends[..], &row, &ends].concat())
            });
            self.pair(
                &instance,
                m as u64,
                rule,
                number,
                &clause,
                entries.as_deref(),
            );
            asked += 1;
            named += usize::from(entries.is_some());
        }
        assert_eq!(asked, 2 * k * (k - 1), "pairs in four blocks, k {k}");
        assert_eq!(named, k * (k - 1), "pairs in two blocks, k {k}");
        named
    }

    /// Two faults at once, of three agents at four times. Every two entries exchanged: 23 names the lower index, be its time
    /// the earlier one or the later. Agents nowhere at two times: 24 names the clause of the earlier time, be its agent the
    /// lower one or the higher.
    pub fn two_faults(&mut self) {
        self.part = "two faults";
        self.case = 0;
        let (n, k, m) = (3, 3, 3);
        // Each agent stays at the vertex of its number.
        let ends = [0, 1, 2];
        let instance = instance_bytes(n, &[], &ends, &ends);
        let right = valuation(n, k, &ends.repeat(m + 1));
        let mut faults = Vec::new();
        for j in 0..right.len() {
            for i in 0..j {
                let mut entries = right.clone();
                entries.swap(i, j);
                faults.push((entries, Said::new(23, i as u64, 0)));
            }
        }
        // At times 0 and m families A and B are at fault first.
        let between = k..k * m;
        for second in between.clone() {
            for first in between.start..second {
                let mut entries = right.clone();
                for at in [first, second] {
                    let x = plain::variable(n, m, at / k, at % k, at % k);
                    entries[x as usize - 1] = -x;
                }
                faults.push((entries, Said::new(24, (2 * k + first) as u64, 0)));
            }
        }
        for (entries, expected) in faults {
            self.next_case();
            for rule in [1, 2] {
                let (answer, _) = self.decode(&instance, m as u64, rule, &entries, k * (m + 1));
                assert_eq!(answer, expected);
            }
        }
    }

    /// A clause of two literals by its number, and entries for which it is the first without a true literal.
    pub fn pair(
        &mut self,
        instance: &[u8],
        m: u64,
        rule: u64,
        number: u64,
        clause: &[i32],
        entries: Option<&[i32]>,
    ) {
        self.next_case();
        let asked = Asked {
            call: CLAUSE,
            instance,
            horizon: m,
            rule,
            clause: Some(number),
            entries,
            ..Asked::default()
        };
        let (given, words) = self.clause(instance, m, rule, number, 3);
        if given != Said::new(0, 3, 0) || words[..2] != *clause || words[2] != 0 {
            self.fail(&asked, &format!("{given:?} {words:?}, listed {clause:?}"));
        }
        if let Some(entries) = entries {
            let rows = entries.len() / usize::from(instance[0]);
            let (decoded, _) = self.decode(instance, m, rule, entries, rows);
            if decoded != Said::new(24, number, 0) {
                let asked = Asked {
                    call: DECODER,
                    ..asked
                };
                self.fail(&asked, &format!("{decoded:?}, listed {number}"));
            }
        }
    }
}

/// The clauses of a family, from 0, with their numbers in the list of all clauses.
fn listed(
    instance: &[u8],
    m: usize,
    rule: u64,
    family: usize,
) -> impl Iterator<Item = (u64, Vec<i32>)> {
    let parts = Parts::of(instance);
    let all = (0..).zip(plain::clauses(instance, m as u64, rule));
    all.filter(move |(number, _)| parts.family(m, rule, *number) == family)
}

/// The variables of a clause of two negative literals.
fn variables(clause: &[i32]) -> [i32; 2] {
    [0, 1].map(|i| -clause[i])
}
