//! Lists of calls of the tally, and what their answers state.

use crate::parts::{enter_occupied, malform, Parts};
use crate::questions::Item;
use crate::sample::Generator;
use crate::tally::COUNTERS;
use crate::worked_tally::plans;
use crate::{tally_plan, Tally};

/// A plan, and what is handed to the tally beside it.
#[derive(Clone, Debug)]
pub struct Submitted {
    pub instance: Vec<u8>,
    pub m: u64,
    pub rule: u64,
    pub plan: Vec<u8>,
}

impl Submitted {
    /// Counts it in this record.
    pub fn count(&self, tally: &mut Tally) -> Item {
        let answer = tally_plan(&self.instance, self.m, self.rule, &self.plan, tally);
        (answer.number, answer.second)
    }
}

/// The record to which calls from an empty one must have come that gave these answers.
pub fn stated(answers: &[Item]) -> Tally {
    let mut costs: Vec<u64> = Vec::new();
    let mut refused = [0; COUNTERS];
    for &(number, second) in answers {
        match number {
            0 => costs.push(second),
            // It says that nothing was counted.
            34 => {}
            _ => refused[number as usize] += 1,
        }
    }
    costs.sort_unstable();
    Tally {
        passed: costs.len() as u64,
        refused,
        sum: costs.iter().sum(),
        least: costs.first().copied().unwrap_or(0),
        greatest: costs.last().copied().unwrap_or(0),
    }
}

/// A plan with a known answer, or one of a walk, whole or damaged.
pub fn some_submitted(g: &mut Generator) -> Submitted {
    if g.chance(30) {
        let mut known = plans();
        return known.swap_remove(g.below(known.len())).0;
    }
    let n = 2 + g.below(5);
    let k = 1 + g.below(n.min(4));
    let m = g.below(6);
    let rule = g.rule();
    let percent = [50, 80, 100][g.below(3)];
    let (mut instance, mut plan) = match g.below(2) {
        0 => g.walk(n, k, percent, m, rule),
        _ => g.waiting_walk(n, k, percent, m, rule),
    };
    match g.below(12) {
        0 => {
            let kind = 1 + g.below(13);
            instance = malform(g, kind, &instance);
        }
        1 => plan.truncate(g.below(plan.len())),
        2 => {
            g.damage(&mut plan);
        }
        3 | 4 => {
            let at = g.below(plan.len());
            plan[at] = g.below(n) as u8;
        }
        5 | 6 => {
            let number = [20, 25, 26][g.below(3)];
            let entered = enter_occupied(g, number, &Parts::of(&instance), &plan);
            plan = entered.unwrap_or(plan);
        }
        _ => {}
    }
    let rule = match g.below(20) {
        0 => g.wrong_rule(),
        1 | 2 => 3 - rule,
        _ => rule,
    };
    let m = match g.below(40) {
        0 => [33, 1 << 32, u64::MAX][g.below(3)],
        _ => m as u64,
    };
    Submitted {
        instance,
        m,
        rule,
        plan,
    }
}
