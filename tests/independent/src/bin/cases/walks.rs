//! Cases around plans that pass, whole and damaged.

use crate::case::{Cases, Given, PRUNED_SIZE, SIZE, WORDS};
use independent::parts::{enter_occupied, Parts};
use independent::questions::{failing, Handed};
use independent::{check_plan, clause, plain};

impl Cases {
    /// A plan for the plan check and, with a slice that turns, for the encoder.
    pub fn both(&mut self, given: &Given, plan: &[u8]) {
        self.plan(given, plan);
        let n = given.variables();
        let lent = match self.random.below(8) {
            0 => n - 1,
            1 => n + 1,
            2 => 0,
            _ => n,
        };
        self.encoder(given, plan, lent);
    }

    /// The writer and one clause, with slices that fit, are short and are longer.
    pub fn formula(&mut self, given: &Given) {
        let words = given.words();
        let lent = match self.random.below(6) {
            0 => words - 1,
            1 => words + 2,
            2 => self.random.below(words),
            _ => words,
        };
        self.writer(given, if lent <= WORDS { lent } else { WORDS });
        let count = given.clauses();
        let number = match self.random.below(12) {
            0 => count - 1,
            1 => count,
            2 => count + 1,
            3 => u64::MAX,
            4 => (1 << 32) + self.random.below(count as usize) as u64,
            _ => self.random.below(count as usize) as u64,
        };
        let (instance, m, rule) = (&given.instance, given.m, given.rule);
        let needed = clause(instance, m, rule, number, &mut []).second as usize;
        let lent = match self.random.below(5) {
            0 => needed - 1,
            1 => needed + 1,
            2 => needed,
            3 => 66,
            _ => self.random.below(70),
        };
        self.clause(given, number, lent.min(200));
    }

    /// The pruned formula's size, and its writer, with a slice that fits, is short
    /// or is longer.
    pub fn pruning(&mut self, given: &Given) {
        self.size(PRUNED_SIZE, given);
        let words = given.pruned_words();
        let lent = match self.random.below(8) {
            0 => words - 1,
            1 => words + 2,
            // Without family H it would fit.
            2 => given.words(),
            3 => self.random.below(words),
            _ => words,
        };
        self.pruned(given, lent.min(WORDS));
    }

    /// A passing plan and its valuation, whole and damaged.
    fn walked(&mut self, given: &Given, plan: &[u8]) {
        let n = given.n();
        self.both(given, plan);
        let mut damaged = plan.to_vec();
        self.random.damage(&mut damaged);
        self.both(given, &damaged);
        let mut damaged = plan.to_vec();
        let at = self.random.below(plan.len());
        damaged[at] = self.random.below(n) as u8;
        self.both(given, &damaged);
        let mut damaged = plan.to_vec();
        let (at, from) = (self.random.below(plan.len()), self.random.below(plan.len()));
        damaged[at] = plan[from];
        self.both(given, &damaged);
        let mut damaged = plan.to_vec();
        damaged.swap(at, from);
        self.both(given, &damaged);
        // One agent beside another in the same row.
        let k = given.k();
        let row = self.random.below(plan.len() / k) * k;
        let mut damaged = plan.to_vec();
        damaged[row + self.random.below(k)] = plan[row + self.random.below(k)];
        self.both(given, &damaged);
        let mut damaged = plan.to_vec();
        if self.random.chance(50) {
            damaged.pop();
        } else {
            damaged.push(0);
        }
        self.both(given, &damaged);
        let bytes = self.random.bytes(plan.len());
        self.both(given, &bytes);
        let mut bytes: Vec<u8> = (0..plan.len())
            .map(|_| self.random.below(n) as u8)
            .collect();
        bytes[..given.k()].copy_from_slice(given.starts());
        self.both(given, &bytes);
        self.valuations(given, plan);
    }

    /// The valuation of a passing plan, whole and damaged.
    fn valuations(&mut self, given: &Given, plan: &[u8]) {
        let (n, k, length) = (given.n(), given.k(), plan.len());
        let entries = plain::valuation(n, k, plan);
        let count = entries.len();
        for lent in [length, length + 1, length - 1] {
            self.decoder(given, &entries, lent);
        }
        let mut damaged = entries.clone();
        let at = self.random.below(count);
        damaged[at] = -damaged[at];
        self.decoder(given, &damaged, length);
        // A true entry is false, and another one of its time and agent is true.
        let (at, v) = (self.random.below(length), self.random.below(n));
        let mut damaged = entries.clone();
        let x = |v: usize| plain::variable(n, given.m as usize, at / k, at % k, v);
        let (out, into) = (x(plan[at].into()), x(v));
        damaged[out as usize - 1] = -out;
        damaged[into as usize - 1] = into;
        self.decoder(given, &damaged, length + 2);
        // Two agents exchanged in one row, or in all.
        let (a, b) = (self.random.below(k), self.random.below(k));
        let t = self.random.below(length / k);
        for rows in [t..t + 1, 0..length / k] {
            let mut other = plan.to_vec();
            for t in rows {
                other.swap(t * k + a, t * k + b);
            }
            self.decoder(given, &plain::valuation(n, k, &other), length);
        }
        // One row repeated.
        let from = self.random.below(length / k);
        let mut other = plan.to_vec();
        other.copy_within(from * k..(from + 1) * k, t * k);
        self.decoder(given, &plain::valuation(n, k, &other), length);
        // An entry out of place, two of them exchanged, an extreme number.
        let (at, from) = (self.random.below(count), self.random.below(count));
        let mut damaged = entries.clone();
        damaged[at] = entries[from];
        self.decoder(given, &damaged, length);
        let mut damaged = entries.clone();
        damaged.swap(at, from);
        self.decoder(given, &damaged, length);
        let mut damaged = entries.clone();
        let extremes = [i32::MIN, i32::MAX, i32::MIN + 1, 0, count as i32 + 1];
        damaged[at] = extremes[self.random.below(5)];
        self.decoder(given, &damaged, length);
        // Lengths off by one, and random signs.
        self.decoder(given, &entries[..count - 1], length);
        let mut longer = entries.clone();
        longer.push(count as i32 + 1);
        self.decoder(given, &longer, length);
        let mut signs = entries;
        for _ in 0..1 + self.random.below(4) {
            let at = self.random.below(count);
            signs[at] = -signs[at];
        }
        self.decoder(given, &signs, length);
    }

    /// An accepted instance at random, with a walk through it.
    pub fn larger(&mut self, most: usize) {
        let n = 1 + self.random.below(most);
        let k = 1 + self.random.below(n.min(1 + most / 4));
        let m = self.random.below(1 + most / 3);
        let percent = [10, 30, 60, 100][self.random.below(4)];
        let rule = self.random.rule();
        let (instance, plan) = self.random.walk(n, k, percent, m, rule);
        let given = Given {
            instance,
            m: m as u64,
            rule,
        };
        self.size(SIZE, &given);
        self.formula(&given);
        self.floor(&given);
        self.pruning(&given);
        self.walked(&given, &plan);
        // The same plan under the other rule.
        let other = given.under(3 - rule);
        self.both(&other, &plan);
        self.decoder(&other, &plain::valuation(n, k, &plan), plan.len());
        self.exchanging(&given, &plan);
        // Wrong goals: the last row fails, unless all agents are free.
        let goals = self.random.goals(n, k);
        let mut other = given.instance.clone();
        let from = other.len() - k;
        other[from..].copy_from_slice(&goals);
        let given = Given {
            instance: other,
            m: m as u64,
            rule,
        };
        self.both(&given, &plan);
        self.floor(&given);
        let entries = plain::valuation(n, k, &plan);
        self.decoder(&given, &entries, plan.len());
    }

    /// An accepted plan in which agents wait, move and rest, with up to `most`
    /// vertices and steps.
    pub fn waiting(&mut self, most: usize) {
        let n = 2 + self.random.below(most - 1);
        // Half of the vertices at least are free, so that most agents that want to move can.
        let k = 1 + self.random.below((n / 2).min(16));
        let m = 1 + self.random.below(most);
        let percent = [30, 60, 100][self.random.below(3)];
        let rule = self.random.rule();
        let (instance, plan) = self.random.waiting_walk(n, k, percent, m, rule);
        let m = m as u64;
        self.plan(&Given { instance, m, rule }, &plan);
    }

    /// `k` agents of which some enter occupied vertices. Under rule 1 each of the three
    /// numbers is the answer, with 4 agents or more beside each of the others. Under rule
    /// 2 an exchange is, with 4 or more beside a sharing too, and a sharing is.
    pub fn crowded(&mut self, k: usize) {
        let mut wanted = Vec::new();
        for number in [20, 25, 26] {
            let others = [20, 25, 26].into_iter();
            let others = others.filter(|&other| k > 3 || other == number);
            wanted.extend(others.map(|other| (1, number, other)));
        }
        wanted.extend([(2, 25, 25), (2, 21, 21)]);
        if k > 3 {
            wanted.push((2, 25, 21));
        }
        for (rule, number, other) in wanted {
            let found = (0..10_000).find_map(|_| self.occupied(k, rule, number, other));
            let (given, plan) = found
                .unwrap_or_else(|| panic!("{k} agents, rule {rule}: no {number} beside {other}"));
            self.plan(&given, &plan);
            self.encoder(&given, &plan, given.variables());
        }
    }

    /// An instance and a plan that gets `number` under this rule, while `other` fails
    /// in the same step, if chance gives them.
    fn occupied(
        &mut self,
        k: usize,
        rule: u64,
        number: u32,
        other: u32,
    ) -> Option<(Given, Vec<u8>)> {
        let n = k + 1 + self.random.below(8);
        let m = 1 + self.random.below(3);
        let percent = [30, 60, 100][self.random.below(3)];
        let (instance, plan) = self.random.walk(n, k, percent, m, rule);
        let parts = Parts::of(&instance);
        // Who enters the vertex of one that stays shares it then.
        let way = if other == 21 { 20 } else { other };
        let plan = enter_occupied(&mut self.random, way, &parts, &plan)?;
        let m = m as u64;
        let answer = check_plan(&instance, m, rule, &plan);
        let handed = Handed {
            instance: &instance,
            horizon: m,
            rule,
            clause: None,
            plan: &plan,
            entries: &[],
            text: &[],
            lent: 0,
            pruned: false,
            ..Handed::default()
        };
        let step = |place: u64| place / k as u64;
        let beside = |&place: &u64| step(place) == step(answer.second);
        let comes = answer.number == number && failing(other, &handed).iter().any(beside);
        comes.then_some((Given { instance, m, rule }, plan))
    }

    /// One instance of up to 20 vertices, for the size, the writer and the clauses
    /// alone.
    pub fn formulas(&mut self) {
        let n = 1 + self.random.below(20);
        let k = 1 + self.random.below(n.min(16));
        let m = self.random.below(9) as u64;
        let percent = self.random.below(101);
        let instance = self.random.instance(n, k, percent);
        let rule = self.random.rule();
        let given = Given { instance, m, rule };
        self.size(SIZE, &given);
        self.formula(&given);
        self.formula(&given);
    }
}
