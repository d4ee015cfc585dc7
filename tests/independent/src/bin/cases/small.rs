//! Malformed instances, and all of some small sets.

use crate::case::{Cases, Given, SIZE};
use independent::sample::{all_edges, instance_bytes, WRONG_RULES};
use independent::{is_free, plain, NO_GOAL};
use std::slice;

impl Cases {
    /// Every call on bytes that are most likely refused.
    fn refused(&mut self, instance: Vec<u8>, m: u64) {
        let rule = match self.random.chance(30) {
            true => self.random.wrong_rule(),
            false => self.random.rule(),
        };
        self.all_refused(&Given { instance, m, rule });
    }

    /// Every call on what is most likely refused.
    fn all_refused(&mut self, given: &Given) {
        self.writer(given, 5);
        self.clause(given, 0, 3);
        let plan = self.random.bytes(3);
        self.plan(given, &plan);
        self.decoder(given, &[1, -2], 4);
        self.encoder(given, &plan, 4);
        self.reader(given, b"s SATISFIABLE\nv 1 -2 0\n", 4);
        self.floor(given);
        self.pruned(given, 5);
        self.sizes(given);
    }

    /// Malformed instances for the questions 1 to 10.
    pub fn malformed(&mut self) {
        let n = 3 + self.random.below(6);
        let k = 2 + self.random.below(2);
        let edges = loop {
            let edges = self.random.edges(n, 60);
            if edges.len() > 1 {
                break edges;
            }
        };
        let (starts, goals) = (self.random.vertices(n, k), self.random.goals(n, k));
        let good = instance_bytes(n, &edges, &starts, &goals);
        let e = edges.len();
        let m = self.random.below(33) as u64;
        let cut = self.random.below(4);
        self.refused(good[..cut].to_vec(), m);
        for n in [0, 65, 64 + self.random.below(192)] {
            let mut bad = good.clone();
            bad[0] = n as u8;
            self.refused(bad, m);
        }
        for k in [0, 17, n + 1, self.random.below(256)] {
            let mut bad = good.clone();
            bad[1] = k as u8;
            self.refused(bad, m);
        }
        for e in [n * (n - 1) / 2 + 1, 256 + e, e + 1, e - 1] {
            let mut bad = good.clone();
            bad[2..4].copy_from_slice(&(e as u16).to_le_bytes());
            self.refused(bad, m);
        }
        let mut bad = good.clone();
        bad.push(0);
        self.refused(bad, m);
        self.refused(good[..good.len() - 1].to_vec(), m);
        let j = self.random.below(e);
        let mut bad = edges.clone();
        bad[j] = [(bad[j].1, bad[j].0), (bad[j].0, bad[j].0), (0, n as u8)][self.random.below(3)];
        self.refused(instance_bytes(n, &bad, &starts, &goals), m);
        let mut bad = edges.clone();
        let j = 1 + self.random.below(e - 1);
        if self.random.chance(50) {
            bad[j] = bad[j - 1];
        } else {
            bad.swap(j, j - 1);
        }
        self.refused(instance_bytes(n, &bad, &starts, &goals), m);
        // A goal byte of 255 is right.
        for (at, beyond) in [(0, 255), (1, 254)] {
            let mut ends = [starts.clone(), goals.clone()];
            let a = 1 + self.random.below(k - 1);
            ends[at][a] = [ends[at][0], n as u8, beyond][self.random.below(3)];
            self.refused(instance_bytes(n, &edges, &ends[0], &ends[1]), m);
        }
        for m in [33, 255, 1 << 32, 1 << 63, u64::MAX] {
            self.refused(good.clone(), m);
        }
        for rule in WRONG_RULES {
            let instance = good.clone();
            self.all_refused(&Given { instance, m, rule });
        }
        let mut bad = good;
        self.random.damage(&mut bad);
        self.refused(bad, m);
        let length = self.random.below(20);
        let mut bytes = self.random.bytes(length);
        bytes.iter_mut().for_each(|b| *b %= 5);
        self.refused(bytes, m);
    }

    /// What is asked of one small instance.
    pub fn small(&mut self, given: &Given) {
        self.formula(given);
        let (n, k) = (given.n(), given.k());
        let mut plan: Vec<u8> = (0..given.plan_length())
            .map(|_| self.random.below(n) as u8)
            .collect();
        plan[..k].copy_from_slice(given.starts());
        // Free agents end anywhere.
        let from = plan.len() - k;
        for (byte, &goal) in plan[from..].iter_mut().zip(given.goals()) {
            if !is_free(goal) {
                *byte = goal;
            }
        }
        if self.random.chance(50) {
            self.plan(given, &plan);
        } else {
            self.encoder(given, &plan, given.variables());
        }
        self.decoder(given, &plain::valuation(n, k, &plan), plan.len());
    }

    /// The size and the pruned formula of one small instance, and the floor, which
    /// needs no horizon and so comes once.
    pub fn small_pruned(&mut self, given: &Given) {
        if given.m == 0 {
            self.floor(given);
        }
        self.size(SIZE, given);
        self.pruning(given);
    }

    /// All bytes up to `n` as a plan, one more than the vertices.
    pub fn all_plans(&mut self, given: &Given) {
        let (n, length) = (given.n() + 1, given.plan_length());
        for index in 0..n.pow(length as u32) {
            let mut rest = index;
            let mut plan = vec![0; length];
            for byte in plan.iter_mut().rev() {
                *byte = (rest % n) as u8;
                rest /= n;
            }
            // 5 shares no divisor with n, so each call gets every last byte.
            if index % 5 == 4 {
                self.encoder(given, &plan, given.variables());
            } else {
                self.plan(given, &plan);
            }
        }
    }

    /// All clauses by number, and the first number past them.
    pub fn all_clauses(&mut self, given: &Given) {
        for number in 0..=given.clauses() {
            let lent = 3 + self.random.below(6);
            self.clause(given, number, lent);
        }
    }

    /// All sign patterns.
    pub fn all_valuations(&mut self, given: &Given) {
        let count = given.variables();
        for signs in 0..1u32 << count {
            let entries: Vec<i32> = (0..count)
                .map(|i| {
                    let x = i as i32 + 1;
                    if signs >> i & 1 == 1 {
                        x
                    } else {
                        -x
                    }
                })
                .collect();
            self.decoder(given, &entries, given.plan_length());
        }
    }
}

/// All sequences of so many items.
pub fn sequences<T: Clone>(items: &[T], length: usize) -> Vec<Vec<T>> {
    let mut all = vec![Vec::new()];
    for _ in 0..length {
        let longer = |sequence: &Vec<T>| {
            let sequence = sequence.clone();
            items
                .iter()
                .map(move |item| [&sequence[..], slice::from_ref(item)].concat())
        };
        all = all.iter().flat_map(longer).collect();
    }
    all
}

/// Starts: k different vertices below n.
fn starts(n: u8, k: usize) -> Vec<Vec<u8>> {
    let mut all = goals(n, k);
    all.retain(|starts| !starts.contains(&NO_GOAL));
    all
}

/// Goals: k different vertices below n, or none.
fn goals(n: u8, k: usize) -> Vec<Vec<u8>> {
    let bytes: Vec<u8> = (0..n).chain([NO_GOAL]).collect();
    let mut all = sequences(&bytes, k);
    let differs = |goals: &[u8], a: usize| is_free(goals[a]) || !goals[..a].contains(&goals[a]);
    all.retain(|goals| (0..k).all(|a| differs(goals, a)));
    all
}

/// All instances on n vertices with k agents at the horizon m, under both rules.
pub fn instances(n: usize, k: usize, m: u64) -> Vec<Given> {
    let edges = all_edges(n);
    let mut all = Vec::new();
    for graph in 0..1usize << edges.len() {
        let mut index = 0..edges.len();
        let mut chosen = edges.clone();
        chosen.retain(|_| graph >> index.next().unwrap_or(0) & 1 == 1);
        for starts in starts(n as u8, k) {
            for goals in goals(n as u8, k) {
                let instance = instance_bytes(n, &chosen, &starts, &goals);
                let given = Given {
                    instance,
                    m,
                    rule: 1,
                };
                all.extend([given.under(2), given]);
            }
        }
    }
    all
}

/// All instances on up to 4 vertices with up to 2 agents and m up to 2.
pub fn small_instances() -> Vec<Given> {
    let mut all = Vec::new();
    for n in 1..=4 {
        for k in 1..=n.min(2) {
            for m in 0..=2 {
                all.extend(instances(n, k, m));
            }
        }
    }
    all
}
