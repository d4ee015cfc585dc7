//! Instances with free agents, beside the same ones with goals.

use crate::run::Run;
use crate::said::{Asked, Said};
use crate::{CHECK, CLAUSE, DECODER, ENCODER, FREE, PRUNED, SIZE, WRITER};
use independent::free;
use independent::output::output;
use independent::plain;
use independent::questions::Item;
use independent::sample::{refused_twice, Generator};
use independent::NO_GOAL;
use interface::input::{some_entries, some_plan, valuation, Parts};

/// Drawn under one rule and the other in turn.
const FREE_CASES: usize = 2000;

impl Run {
    /// Instances with free agents: with known answers, refused ones, and drawn ones beside the same with goals. Gives how
    /// many plans passed because agents were free.
    pub fn free(&mut self, g: &mut Generator) -> usize {
        self.part = FREE;
        self.case = 0;
        for worked in free::worked() {
            self.next_case();
            self.floor(&worked.instance);
            for rule in [1, 2] {
                self.formula(&worked.instance, worked.m, rule, true);
                self.pruned(&worked.instance, worked.m, rule);
            }
            for plan in worked.plans {
                self.next_case();
                self.worked_plan(&worked.instance, worked.m, 1, plan);
            }
        }
        for (instance, m, rule, [first, _]) in refused_twice() {
            self.next_case();
            self.refused(&instance, m, rule, first);
        }
        let mut passed = 0;
        for _ in 0..FREE_CASES {
            self.next_case();
            passed += self.freed_pair(g);
        }
        assert!(passed > 0, "no plan passes because agents are free");
        passed
    }

    /// A plan with the plan check's answer, and the decoder's for its valuation; encoder and reader too.
    pub fn worked_plan(
        &mut self,
        instance: &[u8],
        m: u64,
        rule: u64,
        &(plan, checked, decoded): &(&[u8], Item, Item),
    ) {
        let [n, k] = [0, 1].map(|size| usize::from(instance[size]));
        let says = |(number, second): Item| Said::new(number, second, 0);
        let count = n * plan.len();
        let encoded = match checked {
            (0, _) => (0, count as u64),
            refused => refused,
        };
        let right = valuation(n, k, plan);
        assert_eq!(self.check(instance, m, rule, plan), says(checked));
        let (answer, entries) = self.encode(instance, m, rule, plan, count);
        assert_eq!(answer, says(encoded));
        assert!(encoded.0 != 0 || entries == right);
        let (answer, bytes) = self.decode(instance, m, rule, &right, plan.len());
        assert_eq!(answer, says(decoded));
        assert!(decoded.0 != 0 || bytes == plan);
        let (answer, entries) = self.read(instance, m, rule, &output(&right, 78), count);
        assert_eq!(answer, says((0, count as u64)));
        assert!(entries == right);
    }

    /// An instance that every call refuses so; the floor only before the tenth question.
    pub fn refused(&mut self, instance: &[u8], m: u64, rule: u64, (number, place): Item) {
        let expected = Said::new(number, place, 0);
        let mut answers = self.sizes(instance, m, rule).to_vec();
        answers.extend([
            self.write(WRITER, instance, m, rule, 4).0,
            self.write(PRUNED, instance, m, rule, 4).0,
            self.clause(instance, m, rule, 0, 4).0,
            self.check(instance, m, rule, &[0]),
            self.decode(instance, m, rule, &[1], 4).0,
            self.encode(instance, m, rule, &[0], 4).0,
            self.read(instance, m, rule, b"s UNKNOWN", 4).0,
        ]);
        let floor = self.floor(instance);
        if number < 10 {
            answers.push(floor);
        }
        assert!(answers.iter().all(|&answer| answer == expected));
    }

    /// An instance with goals for all agents, where a plan takes them, and the same with some agents free. What must hold
    /// of the two needs no second program. Gives how many plans passed for the second alone.
    fn freed_pair(&mut self, g: &mut Generator) -> usize {
        let most = [6, 6, 6, 6, 20][g.below(5)];
        let n = 1 + g.below(most);
        let most = [4, 16][g.below(2)];
        let k = 1 + g.below(n.min(most));
        let m = g.below(4);
        let percent = [0, 40, 60, 80, 100][g.below(5)];
        let rule = 1 + self.case % 2;
        let (instance, plan) = match g.below(2) {
            0 => g.walk(n, k, percent, m, rule),
            _ => g.waiting_walk(n, k, percent, m, rule),
        };
        let mut all = Parts::of(&instance);
        all.goals = plan[m * k..].to_vec();
        let mut some = all.clone();
        while some.free().is_empty() {
            g.free_some(&mut some.goals);
        }
        let pair = Freed {
            m: m as u64,
            rule,
            all: all.bytes(),
            some: some.bytes(),
            parts: some,
        };
        self.freed_formula(g, &pair);
        self.freed_family_h(&pair);
        self.freed_plan(&pair, &plan, true);
        self.freed_entries(&pair, &valuation(n, k, &plan), true);
        let mut passed = usize::from(self.other_goals(g, &pair, &plan));
        for _ in 0..4 {
            let damaged = some_plan(g, &all, m, &plan);
            passed += usize::from(self.freed_plan(&pair, &damaged, false));
            self.freed_entries(&pair, &some_entries(g, &all, m, &plan), false);
        }
        let damaged = [0; 4].map(|_| some_plan(g, &all, m, &plan));
        self.all_free(&all, (m as u64, rule), &plan, &damaged);
        passed
    }

    /// The clauses of B for agents that are free now are gone, the other ones have moved up, and both sizes say so.
    fn freed_formula(&mut self, g: &mut Generator, pair: &Freed) {
        let (m, rule) = (pair.m, pair.rule);
        let (k, free) = (pair.parts.k(), pair.parts.free().len());
        let asked = |call: usize| Asked {
            call,
            instance: &pair.some,
            horizon: m,
            rule,
            ..Asked::default()
        };
        let [size, _] = self.sizes(&pair.all, m, rule);
        let [cut, _] = self.sizes(&pair.some, m, rule);
        let less = Said::new(0, size.second - 2 * free as u64, size.clauses - free as u64);
        if cut != less {
            self.fail(&asked(SIZE), &format!("{cut:?} beside {size:?}"));
        }
        let (_, all) = self.write(WRITER, &pair.all, m, rule, size.second as usize);
        let (_, some) = self.write(WRITER, &pair.some, m, rule, cut.second as usize);
        // A has 2 words for each agent, and so had B.
        let mut expected = all[..2 * k].to_vec();
        for a in pair.parts.bound() {
            expected.extend(&all[2 * (k + a)..][..2]);
        }
        expected.extend(&all[4 * k..]);
        if some != expected {
            self.fail(&asked(WRITER), "not the words without those clauses");
        }
        // Every clause, or of a long formula the first ones and some others.
        let first = size.clauses.min(200);
        let others = match size.clauses - first {
            0 => 0,
            _ => 20,
        };
        let others = (0..others).map(|_| g.below(size.clauses as usize) as u64);
        for number in (0..first).chain(others) {
            let (answer, words) = self.clause(&pair.all, m, rule, number, 66);
            let Some(to) = pair.moved(number) else {
                continue;
            };
            let same = self.clause(&pair.some, m, rule, to, 66) == (answer, words);
            if answer.number != 0 || !same {
                self.fail(&asked(CLAUSE), &format!("not clause {number} at {to}"));
            }
        }
        let (beyond, _) = self.clause(&pair.some, m, rule, cut.clauses, 66);
        if beyond != Said::new(11, cut.clauses, 0) {
            self.fail(&asked(CLAUSE), &format!("{beyond:?} beside {cut:?}"));
        }
    }

    /// Family H is the same of agents with a goal, and of a free one what its steps from the start cannot reach.
    fn freed_family_h(&mut self, pair: &Freed) {
        let n = pair.parts.n;
        let [all, some] =
            [&pair.all, &pair.some].map(|instance| self.family_h(instance, pair.m, pair.rule));
        for a in 0..pair.parts.k() {
            let of = |h: &[i32]| -> Vec<(usize, usize)> {
                let all = h.iter();
                let all = all.map(|x| plain::time_agent_vertex(n, pair.m as usize, -x));
                let own = all.filter(|x| x.1 == a);
                own.map(|(t, _, v)| (t, v)).collect()
            };
            let expected = match pair.parts.is_free(a) {
                true => out_of_reach(&pair.parts, a, pair.m as usize),
                false => of(&all),
            };
            if of(&some) != expected {
                let asked = Asked {
                    call: PRUNED,
                    instance: &pair.some,
                    horizon: pair.m,
                    rule: pair.rule,
                    ..Asked::default()
                };
                self.fail(&asked, &format!("family H of agent {a} is {:?}", of(&some)));
            }
        }
    }

    /// The literals of family H.
    pub fn family_h(&mut self, instance: &[u8], m: u64, rule: u64) -> Vec<i32> {
        let [first, needed] = self
            .sizes(instance, m, rule)
            .map(|size| size.second as usize);
        let (_, words) = self.write(PRUNED, instance, m, rule, needed);
        words[first..].iter().step_by(2).copied().collect()
    }

    /// A plan gets the same answer, and leads to the same entries and back, unless one that is free now is not where its
    /// goal was: then it passes, or an agent behind it is at fault. True where it passes for the second alone.
    fn freed_plan(&mut self, pair: &Freed, plan: &[u8], passes: bool) -> bool {
        let (m, rule, k) = (pair.m, pair.rule, pair.parts.k());
        let count = pair.parts.n * k * (m as usize + 1);
        let all = self.check(&pair.all, m, rule, plan);
        let some = self.check(&pair.some, m, rule, plan);
        let is_free = |place: u64| pair.parts.is_free(place as usize % k);
        let right = match all.number {
            22 if is_free(all.second) => match some.number {
                22 => some.second > all.second && !is_free(some.second),
                number => number == 0,
            },
            _ => some == all && (!passes || all.number == 0),
        };
        let asked = Asked {
            call: CHECK,
            instance: &pair.some,
            horizon: m,
            rule,
            plan: Some(plan),
            ..Asked::default()
        };
        if !right {
            self.fail(&asked, &format!("{some:?}, with all goals {all:?}"));
        }
        self.plan(&pair.some, m, rule, plan, count);
        if all.number == 0 {
            let encoded = self.encode(&pair.all, m, rule, plan, count);
            if self.encode(&pair.some, m, rule, plan, count) != encoded {
                let asked = Asked {
                    call: ENCODER,
                    ..asked
                };
                self.fail(&asked, "other entries than with all goals");
            }
        }
        all.number != 0 && some.number == 0
    }

    /// Entries get the same answer and lead to the same plan, but that 24 names a clause where it is now; where it is gone,
    /// a later one or none is at fault.
    fn freed_entries(&mut self, pair: &Freed, entries: &[i32], satisfy: bool) {
        let rows = pair.parts.k() * (pair.m as usize + 1);
        let (all, plan) = self.decode(&pair.all, pair.m, pair.rule, entries, rows);
        let (some, other) = self.decode(&pair.some, pair.m, pair.rule, entries, rows);
        let right = match all.number {
            24 => match pair.moved(all.second) {
                Some(to) => some == Said::new(24, to, 0),
                None => {
                    let later = some.number == 24 && some.second >= pair.before(all.second);
                    some.number == 0 || later
                }
            },
            _ => (&some, &other) == (&all, &plan) && (!satisfy || all.number == 0),
        };
        if !right {
            let asked = Asked {
                call: DECODER,
                instance: &pair.some,
                horizon: pair.m,
                rule: pair.rule,
                entries: Some(entries),
                ..Asked::default()
            };
            self.fail(&asked, &format!("{some:?}, with all goals {all:?}"));
        }
    }

    /// The plan where those that are free now have other goals: 22 names the first that is not at its own. True if there
    /// is one; with free agents the plan passes.
    fn other_goals(&mut self, g: &mut Generator, pair: &Freed, plan: &[u8]) -> bool {
        let mut parts = pair.parts.clone();
        let goals = parts.goals.clone();
        let mut open: Vec<u8> = (0..parts.n as u8).filter(|v| !goals.contains(v)).collect();
        g.shuffle(&mut open);
        for (a, v) in parts.free().into_iter().zip(open) {
            parts.goals[a] = v;
        }
        let last = plan.len() - parts.k();
        let away = (0..parts.k()).find(|&a| plan[last + a] != parts.goals[a]);
        let answer = self.check(&parts.bytes(), pair.m, pair.rule, plan);
        match away {
            Some(a) => assert_eq!(answer, Said::new(22, (last + a) as u64, 0)),
            None => assert_eq!(answer.number, 0),
        }
        let count = parts.n * plan.len();
        self.plan(&parts.bytes(), pair.m, pair.rule, plan, count);
        away.is_some()
    }

    /// All agents are free: the floor is 0, B is empty, no plan gets 22, and one that passes does so too, at the same cost,
    /// where the goals are those that it leads to.
    fn all_free(&mut self, parts: &Parts, (m, rule): (u64, u64), plan: &[u8], damaged: &[Vec<u8>]) {
        let none = freed(parts, |_| true).bytes();
        let (n, k) = (parts.n, parts.k());
        assert_eq!(self.floor(&none), Said::new(0, 0, 0));
        let (answer, words) = self.clause(&none, m, rule, k as u64, n + 1);
        assert_eq!(answer, Said::new(0, n as u64 + 1, 0));
        assert!(words[..n].iter().eq(&(1..=n as i32).collect::<Vec<_>>()));
        self.pruned(&none, m, rule);
        assert_eq!(self.check(&none, m, rule, plan).number, 0);
        for plan in damaged {
            let checked = self.check(&none, m, rule, plan);
            assert_ne!(checked.number, 22);
            self.plan(&none, m, rule, plan, n * k * (m as usize + 1));
            if checked.number == 0 {
                let mut reached = parts.clone();
                reached.goals = plan[plan.len() - k..].to_vec();
                assert_eq!(self.check(&reached.bytes(), m, rule, plan), checked);
            }
        }
    }
}

/// An instance with goals for all agents, and the same with some agents free, which the parts are of.
struct Freed {
    m: u64,
    rule: u64,
    all: Vec<u8>,
    some: Vec<u8>,
    parts: Parts,
}

impl Freed {
    /// Where this clause of the instance with all goals is in the other; none where it is gone.
    fn moved(&self, number: u64) -> Option<u64> {
        let k = self.parts.k() as u64;
        let gone = (k..2 * k).contains(&number) && self.parts.is_free((number - k) as usize);
        (!gone).then(|| self.before(number))
    }

    /// How many clauses of the other instance stand before this one of the instance with all goals.
    pub fn before(&self, number: u64) -> u64 {
        let k = self.parts.k() as u64;
        let free = self.parts.free().into_iter();
        number - free.filter(|&a| k + (a as u64) < number).count() as u64
    }
}

/// The times and vertices at which the agent cannot be: as many steps from its start do not lead there.
fn out_of_reach(parts: &Parts, a: usize, m: usize) -> Vec<(usize, usize)> {
    let mut reached = vec![parts.starts[a]];
    let mut out = Vec::new();
    for t in 0..=m {
        let others = (0..parts.n).filter(|&v| !reached.contains(&(v as u8)));
        out.extend(others.map(|v| (t, v)));
        let near = |&v: &u8| reached.iter().any(|&w| v == w || parts.has_edge(v, w));
        reached = (0..parts.n as u8).filter(near).collect();
    }
    out
}

/// The same instance, in which these agents have no goal.
pub fn freed(parts: &Parts, chosen: impl Fn(usize) -> bool) -> Parts {
    let mut parts = parts.clone();
    for a in (0..parts.k()).filter(|&a| chosen(a)) {
        parts.goals[a] = NO_GOAL;
    }
    parts
}
