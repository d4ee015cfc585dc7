//! One movement rule beside the other, and refusal 31. What must hold of the two needs no second program.

use crate::run::Run;
use crate::said::{Asked, Said};
use crate::{CHECK, DECODER, PRUNED, RULES, SIZE, WRITER};
use independent::closing::exchange;
use independent::output::output;
use independent::plain;
use independent::rules;
use independent::sample::{all_edges, instance_bytes, refused_twice, Generator, WRONG_RULES};
use independent::NO_GOAL;
use interface::input::{some_entries, some_plan, valuation, Parts};

const RULE_CASES: usize = 600;

impl Run {
    /// Instances with known answers under both rules, wrong rules, every step of some agents on small maps, and drawn
    /// instances. Gives the cases, and how many plans passed under rule 2 alone.
    pub fn rules(&mut self, g: &mut Generator) -> (u64, usize) {
        self.part = RULES;
        self.case = 0;
        for worked in rules::worked() {
            let (instance, m) = (&worked.instance, worked.m);
            for rule in [1, 2] {
                self.formula(instance, m, rule, true);
                self.pruned(instance, m, rule);
            }
            self.both_formulas(instance, m);
            for (plan, checked, decoded) in worked.plans {
                self.next_case();
                for rule in [0, 1] {
                    let plan = &(*plan, checked[rule], decoded[rule]);
                    self.worked_plan(instance, m, rule as u64 + 1, plan);
                }
                self.both_plans(instance, m, plan);
            }
        }
        self.wrong_rules();
        for (instance, m, rule, [first, _]) in refused_twice() {
            self.next_case();
            self.refused(&instance, m, rule, first);
        }
        let mut followed = 0;
        for _ in 0..RULE_CASES {
            self.next_case();
            followed += self.drawn_under_both(g);
        }
        // To tell wrong programs takes long, and there are many of these.
        self.part = "steps";
        followed += self.all_steps();
        assert!(followed > 0, "no plan passes under rule 2 alone");
        (self.case, followed)
    }

    /// Every call that takes the rule refuses these with 31, place 0, whatever else is wrong behind it, and not where
    /// something before it is.
    fn wrong_rules(&mut self) {
        let ring = instance_bytes(3, &all_edges(3), &[0, 1, 2], &[1, 2, 0]);
        let pair = instance_bytes(2, &[(0, 1)], &[0], &[1]);
        let right: [(&[u8], &[u8]); 2] = [(&ring, &[0, 1, 2, 1, 2, 0]), (&pair, &[0, 1])];
        for (rule, (instance, plan)) in WRONG_RULES
            .into_iter()
            .flat_map(|rule| right.map(|right| (rule, right)))
        {
            self.next_case();
            let [n, k] = [0, 1].map(|size| usize::from(instance[size]));
            let entries = valuation(n, k, plan);
            let text = output(&entries, 78);
            let mut answers = self.sizes(instance, 1, rule).to_vec();
            for length in [0, 4, 2000] {
                answers.push(self.write(WRITER, instance, 1, rule, length).0);
                answers.push(self.write(PRUNED, instance, 1, rule, length).0);
                for number in [0, 7, 100_000, u64::MAX] {
                    answers.push(self.clause(instance, 1, rule, number, length).0);
                }
                for plan in [plan, &[], &plan[1..], &vec![0; plan.len()], &[255, 255]] {
                    answers.push(self.check(instance, 1, rule, plan));
                    answers.push(self.encode(instance, 1, rule, plan, length).0);
                }
                for entries in [&entries[..], &[], &entries[1..], &vec![0; entries.len()]] {
                    answers.push(self.decode(instance, 1, rule, entries, length).0);
                }
                for text in [&text[..], b"", b"s UNKNOWN", b"v 0 0"] {
                    answers.push(self.read(instance, 1, rule, text, length).0);
                }
            }
            let expected = Said::new(31, 0, 0);
            assert!(answers.iter().all(|&answer| answer == expected));
            self.refused(instance, 33, rule, (10, 0));
            self.refused(&instance[1..], 33, rule, {
                let size = independent::formula_size(&instance[1..], 33, rule);
                (size.number, size.second)
            });
        }
    }

    /// Every row after the starts, for three agents and for four on some maps of four vertices, and every two rows for three
    /// agents on every map of three: rings, files, exchanges, sharings and jumps.
    fn all_steps(&mut self) -> usize {
        let ring: &[(u8, u8)] = &[(0, 1), (0, 3), (1, 2), (2, 3)];
        let all = all_edges(4);
        let starts: [&[u8]; 4] = [&[0, 1, 2], &[3, 1, 0], &[0, 1, 2, 3], &[2, 0, 3, 1]];
        let mut followed = 0;
        for edges in [ring, &all, &ring[1..], &all[..3]] {
            for starts in starts {
                followed += self.all_plans(4, edges, starts, 1);
            }
        }
        let all = all_edges(3);
        for graph in 0..8 {
            let chosen = (0..3).filter(|j| graph >> j & 1 == 1).map(|j| all[j]);
            let edges: Vec<(u8, u8)> = chosen.collect();
            followed += self.all_plans(3, &edges, &[1, 0, 2], 2);
        }
        followed
    }

    /// Every plan from these starts, for agents without goals and for those that go where the plan ends.
    fn all_plans(&mut self, n: usize, edges: &[(u8, u8)], starts: &[u8], m: usize) -> usize {
        let k = starts.len();
        let free = instance_bytes(n, edges, starts, &vec![NO_GOAL; k]);
        let mut followed = 0;
        for number in 0..n.pow((k * m) as u32) {
            self.next_case();
            let row = (0..k * m).map(|i| (number / n.pow(i as u32) % n) as u8);
            let plan: Vec<u8> = starts.iter().copied().chain(row).collect();
            followed += usize::from(self.both_plans(&free, m as u64, &plan));
            let mut parts = Parts::of(&free);
            parts.goals = plan[m * k..].to_vec();
            if (1..k).all(|a| !parts.goals[..a].contains(&parts.goals[a])) {
                self.both_plans(&parts.bytes(), m as u64, &plan);
            }
        }
        followed
    }

    /// An instance with a walk under one rule or the other, and what comes of it under both. Gives how many plans passed
    /// under rule 2 alone.
    fn drawn_under_both(&mut self, g: &mut Generator) -> usize {
        let most = [4, 6, 6, 12][g.below(4)];
        let n = 2 + g.below(most - 1);
        let k = 1 + g.below(n.min(6));
        let m = g.below(4);
        let percent = [40, 60, 80, 100][g.below(4)];
        let rule = [1, 2, 2][g.below(3)];
        let (instance, plan) = match g.below(2) {
            0 => g.walk(n, k, percent, m, rule),
            _ => g.waiting_walk(n, k, percent, m, rule),
        };
        let parts = Parts::of(&instance);
        let horizon = m as u64;
        self.both_formulas(&instance, horizon);
        let mut followed = usize::from(self.both_plans(&instance, horizon, &plan));
        for _ in 0..3 {
            let damaged = some_plan(g, &parts, m, &plan);
            followed += usize::from(self.both_plans(&instance, horizon, &damaged));
            self.both_entries(&instance, horizon, &some_entries(g, &parts, m, &plan));
        }
        if let Some((instance, plan)) = exchange(g, &parts, &plan) {
            self.both_plans(&instance, horizon, &plan);
        }
        // The reader does not look at the rule.
        let text = output(&valuation(n, k, &plan), 78);
        let count = n * plan.len();
        let read = [1, 2].map(|rule| self.read(&instance, horizon, rule, &text, count));
        assert!(read[0] == read[1] && read[0].0.number == 0);
        let rule = g.wrong_rule();
        self.refused(&instance, horizon, rule, (31, 0));
        followed
    }

    /// The formulas differ in family G alone, which under rule 2 is what loops over steps, edges and agents give; family H
    /// is the same.
    fn both_formulas(&mut self, instance: &[u8], m: u64) {
        let parts = Parts::of(instance);
        let (n, k, e) = (parts.n as u64, parts.k() as u64, parts.edges.len() as u64);
        let pairs = m * k * (k - 1);
        let [[one, one_h], [two, two_h]] = [1, 2].map(|rule| self.sizes(instance, m, rule));
        let (first, clauses) = (one.second - 3 * pairs * n, one.clauses - pairs * n);
        let right = Said::new(0, first + 5 * pairs * e, clauses + pairs * e);
        let h = one_h.clauses - one.clauses;
        let right_h = Said::new(0, right.second + 2 * h, right.clauses + h);
        let asked = |call: usize| Asked {
            call,
            instance,
            horizon: m,
            rule: 2,
            ..Asked::default()
        };
        if (two, two_h) != (right, right_h) {
            let what = format!("{two:?}, {two_h:?} beside {one:?}, {one_h:?}");
            self.fail(&asked(SIZE), &what);
        }
        let first = first as usize;
        let (_, words) = self.write(PRUNED, instance, m, 1, one_h.second as usize);
        let (_, other) = self.write(PRUNED, instance, m, 2, two_h.second as usize);
        let g = exchanges(&parts, m as usize).flatten();
        let after = [one, two].map(|size| size.second as usize);
        let same = words[..first] == other[..first] && words[after[0]..] == other[after[1]..];
        if !same || !g.eq(other[first..after[1]].iter().copied()) {
            self.fail(&asked(PRUNED), "more than family G is other, or G is wrong");
        }
        let (_, alone) = self.write(WRITER, instance, m, 2, after[1]);
        if alone[..] != other[..after[1]] {
            self.fail(&asked(WRITER), "the pruned formula begins otherwise");
        }
    }

    /// What passes under rule 1 passes under rule 2, at the same cost and with the same entries. Else both refuse alike,
    /// unless rule 1 gives 20, where rule 2 gives 25 of a higher agent, or 21, in the same step; or 26, where it gives
    /// something later or passes. A plan passes under a rule exactly when its valuation satisfies the formula. True where
    /// it passes under rule 2 alone.
    fn both_plans(&mut self, instance: &[u8], m: u64, plan: &[u8]) -> bool {
        let [n, k] = [0, 1].map(|size| usize::from(instance[size]));
        let count = n * k * (m as usize + 1);
        let [one, two] = [1, 2].map(|rule| self.plan(instance, m, rule, plan, count));
        let step = |said: Said| said.second / k as u64;
        let behind = step(two) > step(one);
        let beside = step(two) == step(one) && two.second > one.second;
        let right = match (one.number, two.number) {
            (20, 25) => beside,
            (20, 21) => step(two) == step(one),
            (20, _) => false,
            (26, 0 | 22) => true,
            (26, 19) => behind,
            (26, 25) => beside || behind,
            (26, 21) => behind || step(two) == step(one),
            (26, _) => false,
            _ => two == one,
        };
        if !right {
            let asked = Asked {
                call: CHECK,
                instance,
                horizon: m,
                rule: 2,
                plan: Some(plan),
                ..Asked::default()
            };
            self.fail(&asked, &format!("{two:?}, under rule 1 {one:?}"));
        }
        if plan.len() == k * (m as usize + 1) && plan.iter().all(|&v| usize::from(v) < n) {
            let decoded = self.both_entries(instance, m, &valuation(n, k, plan));
            let passes = [one, two].map(|said| said.number == 0);
            assert_eq!(decoded.map(|said| said.number == 0), passes);
        }
        one.number != 0 && two.number == 0
    }

    /// What satisfies the formula of rule 1 satisfies that of rule 2, with the same plan. Else both refuse alike, unless 24
    /// names a clause of G under rule 1: then it does under rule 2, or a plan comes that rule 1 refuses with 26.
    fn both_entries(&mut self, instance: &[u8], m: u64, entries: &[i32]) -> [Said; 2] {
        let parts = Parts::of(instance);
        let rows = parts.k() * (m as usize + 1);
        let g: u64 = parts.clause_counts(m as usize, 1)[..6].iter().sum();
        let [(one, plan), (two, other)] =
            [1, 2].map(|rule| self.decode(instance, m, rule, entries, rows));
        let right = match (one.number, two.number) {
            (24, 24) if one.second >= g => two.second >= g,
            (24, 0) if one.second >= g => self.check(instance, m, 1, &other).number == 26,
            _ => (one, &plan) == (two, &other),
        };
        if !right {
            let asked = Asked {
                call: DECODER,
                instance,
                horizon: m,
                rule: 2,
                entries: Some(entries),
                ..Asked::default()
            };
            self.fail(&asked, &format!("{two:?}, under rule 1 {one:?}"));
        }
        [one, two]
    }
}

/// The clauses of family G under rule 2, each with its 0.
pub fn exchanges(parts: &Parts, m: usize) -> impl Iterator<Item = [i32; 5]> + '_ {
    let k = parts.k();
    let edges = (0..m).flat_map(move |t| parts.edges.iter().map(move |edge| (t, edge)));
    let agents = move |edge| {
        let pairs = (0..k).flat_map(move |a| (0..k).map(move |b| (a, b)));
        pairs
            .filter(|(a, b)| a != b)
            .map(move |(a, b)| (edge, a, b))
    };
    edges.flat_map(agents).map(move |((t, &(u, v)), a, b)| {
        let x = |t: usize, a: usize, v: u8| plain::variable(parts.n, m, t, a, v.into());
        [
            -x(t, a, u),
            -x(t + 1, a, v),
            -x(t, b, v),
            -x(t + 1, b, u),
            0,
        ]
    })
}
