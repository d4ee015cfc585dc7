//! Plans held and reversed, and instances with starts and goals exchanged.

use crate::case::{Cases, Given};
use independent::questions::Item;
use independent::reversing::{exchanged, held, reversed, with_all_goals};
use independent::sample::Generator;
use independent::worked_reversing::{worked, Checked};
use independent::{check_plan, plain};
use std::mem;

/// Valuations that are longer are left out, so that the cases stay small.
const MOST_ENTRIES: usize = 400;

impl Cases {
    /// Plans with those held and reversed, whose answers are known beforehand, and what
    /// wrong programs make of them.
    pub fn worked_reversing(&mut self) {
        for (index, worked) in worked().iter().enumerate() {
            for rule in [1, 2] {
                let at = rule as usize - 1;
                for checked in [&worked.plan, &worked.held, &worked.reversed] {
                    let (given, plan) = (given(checked, rule), &checked.plan);
                    let answer = self.plan(&given, plan);
                    assert_eq!(answer, Some(checked.answers[at]), "{plan:?}");
                    // One of the two under each rule, in turn.
                    match (index + at) % 2 {
                        0 => self.encoder(&given, plan, given.variables()),
                        _ => self.valuation(&given, plan, checked.answers[at]),
                    }
                }
                if let (0, cost) = worked.plan.answers[at] {
                    self.told_wrong(&given(&worked.plan, rule), &worked.plan.plan, cost);
                }
            }
        }
    }

    /// Asks the plan check about what wrong programs make of a plan that passes, each
    /// until a plan has told it.
    fn told_wrong(&mut self, given: &Given, plan: &[u8], cost: u64) {
        let mut told = mem::take(&mut self.told_reversing);
        let passing = (&given.instance[..], given.m, given.rule);
        told.add(passing, plan, cost, 1, |instance, m, rule, plan| {
            let instance = instance.to_vec();
            let answer = self.plan(&Given { instance, m, rule }, plan);
            answer.expect("no plan is skipped")
        });
        self.told_reversing = told;
    }

    /// A plan for the plan check and the encoder, and its valuation for the decoder.
    /// Gives the check's answer.
    fn all_three(&mut self, given: &Given, plan: &[u8]) -> Item {
        let answer = self.plan(given, plan).expect("no plan is skipped");
        self.encoder(given, plan, given.variables());
        self.valuation(given, plan, answer);
        answer
    }

    /// The valuation of a plan with this answer, if there is one and it is short, for the
    /// decoder, which takes it where the plan passes.
    fn valuation(&mut self, given: &Given, plan: &[u8], answer: Item) {
        let (n, k) = (given.n(), given.k());
        if n * plan.len() <= MOST_ENTRIES && plan.iter().all(|&v| usize::from(v) < n) {
            let entries = plain::valuation(n, k, plan);
            let decoded = self.decoder(given, &entries, plan.len());
            let accepts = decoded.map(|(number, _)| number == 0);
            assert_eq!(accepts, Some(answer.0 == 0), "{plan:?}");
        }
    }

    /// A walk on up to `most` vertices, held; with goals for all agents, reversed; under
    /// the other rule too, and damaged.
    pub fn turned(&mut self, most: usize) {
        let rule = self.random.rule();
        let (instance, plan) = some_walk(&mut self.random, most, rule);
        let k = usize::from(instance[1]);
        let m = (plan.len() / k - 1) as u64;
        let bound = with_all_goals(&instance, &plan);
        let given = |instance: &[u8], m: u64| Given {
            instance: instance.to_vec(),
            m,
            rule,
        };
        let (longer, back) = (held(k, &plan), reversed(k, &plan));
        let first = self.plan(&given(&instance, m), &plan);
        let cost = check_plan(&bound, m, rule, &plan).second;
        assert_eq!(first, Some((0, cost)));
        let right = if m < 32 { (0, cost) } else { (10, 0) };
        let answer = self.all_three(&given(&instance, m + 1), &longer);
        assert_eq!(answer, right);
        let returning = given(&exchanged(&bound), m);
        assert_eq!(self.all_three(&returning, &back).0, 0);
        self.plan(&returning.under(3 - rule), &back);
        // With free agents 255 is a start.
        self.plan(&given(&exchanged(&instance), m), &back);
        self.told_wrong(&given(&bound, m), &plan, cost);
        let mut damaged = plan.clone();
        let at = self.random.below(plan.len());
        damaged[at] = plan[self.random.below(plan.len())];
        let passes = check_plan(&bound, m, rule, &damaged).number == 0;
        let answers = [
            self.plan(&given(&bound, m + 1), &held(k, &damaged)),
            self.plan(&returning, &reversed(k, &damaged)),
        ];
        let passed = answers.map(|answer| answer.is_some_and(|answer| answer.0 == 0));
        assert_eq!(passed, [passes && m < 32, passes], "{damaged:?}");
    }
}

fn given(checked: &Checked, rule: u64) -> Given {
    Given {
        instance: checked.instance.clone(),
        m: checked.m,
        rule,
    }
}

/// A walk on up to `most` vertices, most often of few steps.
fn some_walk(g: &mut Generator, most: usize, rule: u64) -> (Vec<u8>, Vec<u8>) {
    let n = 1 + g.below(most);
    let k = 1 + g.below(n.min(16));
    let m = match g.below(8) {
        0 => 31 + g.below(2),
        1 => g.below(33),
        _ => g.below(6),
    };
    let percent = [20, 50, 100][g.below(3)];
    match g.below(2) {
        0 => g.walk(n, k, percent, m, rule),
        _ => g.waiting_walk(n, k, percent, m, rule),
    }
}
