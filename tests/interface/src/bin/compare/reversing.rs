//! Plans held and reversed. What must hold of the library's answers needs no second program.

use crate::run::Run;
use crate::said::{Asked, Said};
use crate::CHECK;
use independent::reversing::{exchanged, held, reversed, with_all_goals};
use independent::sample::Generator;
use independent::worked_reversing::worked;
use interface::input::{some_plan, valuation, Parts};

/// Drawn under one rule and the other in turn.
const PLANS: usize = 6000;

/// Formulas with more clauses are decoded now and then alone.
const DECODED: u64 = 100_000;

/// What the walks came to.
#[derive(Default)]
pub struct Turned {
    pub plans: u64,
    pub held: u64,
    pub reversed: u64,
    /// Reversed plans whose cost is not that of the plan.
    pub other_cost: u64,
    /// Walks whose exchange was refused, since some agent is free.
    pub refused: u64,
    /// Damaged plans, which fail held and reversed, or pass both ways.
    pub damaged: u64,
    /// Held and reversed plans that were decoded.
    pub decoded: u64,
}

/// An accepted instance with its horizon, its rule, and a plan that passes.
struct Walk<'a> {
    instance: &'a [u8],
    m: u64,
    rule: u64,
    plan: &'a [u8],
    cost: u64,
    /// Is what comes of it decoded too?
    decodes: bool,
}

impl Run {
    /// Plans with known answers, and drawn ones of all sizes.
    pub fn reversing(&mut self, g: &mut Generator) -> Turned {
        self.part = "reversing";
        self.case = 0;
        let mut turned = Turned::default();
        for worked in worked() {
            self.next_case();
            for (rule, at) in [1, 2].into_iter().zip(0..) {
                for checked in [&worked.plan, &worked.held, &worked.reversed] {
                    let (instance, plan) = (&checked.instance, &checked.plan);
                    let count = usize::from(instance[0]) * plan.len();
                    let answer = self.plan(instance, checked.m, rule, plan, count);
                    let (number, second) = checked.answers[at];
                    assert_eq!(answer, Said::new(number, second, 0), "{plan:?}");
                }
                let (instance, plan) = (&worked.plan.instance, &worked.plan.plan);
                let passes = self.turned(g, instance, plan, rule, &mut turned);
                assert_eq!(passes, worked.plan.answers[at].0 == 0);
            }
        }
        for _ in 0..PLANS {
            self.next_case();
            let rule = 1 + self.case % 2;
            let (instance, plan) = some_walk(g, rule);
            turned.plans += 1;
            assert!(self.turned(g, &instance, &plan, rule, &mut turned));
            let bound = with_all_goals(&instance, &plan);
            if bound != instance {
                assert!(self.turned(g, &bound, &plan, rule, &mut turned));
            }
        }
        let counts = [turned.held, turned.reversed, turned.other_cost];
        let others = [turned.refused, turned.damaged, turned.decoded];
        assert!(counts.iter().chain(&others).all(|&times| times > 0));
        turned
    }

    /// A plan that passes, held and reversed, and a damaged one. False where the plan does not pass.
    fn turned(
        &mut self,
        g: &mut Generator,
        instance: &[u8],
        plan: &[u8],
        rule: u64,
        turned: &mut Turned,
    ) -> bool {
        let m = (plan.len() / usize::from(instance[1]) - 1) as u64;
        let answer = self.check(instance, m, rule, plan);
        if answer.number != 0 {
            return false;
        }
        let size = independent::formula_size(instance, m, rule);
        let walk = Walk {
            instance,
            m,
            rule,
            plan,
            cost: answer.second,
            decodes: size.clauses <= DECODED || g.chance(5),
        };
        self.held(&walk, turned);
        self.reversed(&walk, turned);
        self.damaged(g, &walk, turned);
        if instance[0] <= 16 {
            self.tell_reversing(&walk);
        }
        true
    }

    /// The check, the encoder and, if it is to be decoded, the way back. Gives the answer and the bytes that came back.
    fn way(
        &mut self,
        walk: &Walk,
        instance: &[u8],
        m: u64,
        plan: &[u8],
        turned: &mut Turned,
    ) -> (Said, Vec<u8>) {
        let n = usize::from(instance[0]);
        let count = n * plan.len();
        let checked = self.check(instance, m, walk.rule, plan);
        let (encoded, entries) = self.encode(instance, m, walk.rule, plan, count);
        let right = match checked.number {
            0 => Said::new(0, count as u64, 0),
            _ => checked,
        };
        let whole = checked.number != 0 || entries == valuation(n, instance[1].into(), plan);
        if encoded != right || !whole {
            self.wrong(
                instance,
                m,
                walk.rule,
                plan,
                &format!("encoded {encoded:?}"),
            );
        }
        if checked.number != 0 || !walk.decodes {
            return (checked, plan.to_vec());
        }
        let (decoded, back) = self.decode(instance, m, walk.rule, &entries, plan.len());
        if decoded != Said::new(0, plan.len() as u64, 0) || back != plan {
            let what = format!("decoded {decoded:?} {back:?}");
            self.wrong(instance, m, walk.rule, plan, &what);
        }
        turned.decoded += 1;
        self.round_trips += 1;
        (checked, back)
    }

    /// Held, the plan passes at the next horizon at the same cost; at 32 there is none.
    fn held(&mut self, walk: &Walk, turned: &mut Turned) {
        let &Walk {
            instance,
            m,
            rule,
            plan,
            ..
        } = walk;
        let longer = held(instance[1].into(), plan);
        let (answer, back) = self.way(walk, instance, m + 1, &longer, turned);
        let right = match m {
            32 => Said::new(10, 0, 0),
            _ => Said::new(0, walk.cost, 0),
        };
        if answer != right || back[..plan.len()] != *plan {
            let what = format!("held {answer:?}, cost {}", walk.cost);
            self.wrong(instance, m + 1, rule, &longer, &what);
        }
        turned.held += u64::from(m < 32);
    }

    /// Where every agent has a goal the exchange is accepted, with the same sizes and floor, and the reversed plan passes
    /// for it; both go back to what they were. Else the exchange has a start of 255.
    fn reversed(&mut self, walk: &Walk, turned: &mut Turned) {
        let &Walk {
            instance,
            m,
            rule,
            plan,
            ..
        } = walk;
        let k = usize::from(instance[1]);
        let parts = Parts::of(instance);
        let other = exchanged(instance);
        let back = reversed(k, plan);
        if let Some(a) = parts.free().first() {
            let place = 4 + 2 * parts.edges.len() + a;
            self.refused(&other, m, rule, (8, place as u64));
            let answer = self.check(&other, m, rule, &back);
            assert_eq!(answer, Said::new(8, place as u64, 0));
            turned.refused += 1;
            return;
        }
        let (answer, decoded) = self.way(walk, &other, m, &back, turned);
        if answer.number != 0 {
            self.wrong(&other, m, rule, &back, &format!("reversed {answer:?}"));
        }
        // From what the library gave back.
        let (again, first) = (reversed(k, &decoded), exchanged(&other));
        let restored = again == plan && first == instance;
        let checked = self.check(&first, m, rule, &again);
        if !restored || checked != Said::new(0, walk.cost, 0) {
            self.wrong(&first, m, rule, &again, &format!("restored {checked:?}"));
        }
        if self.sizes(&other, m, rule) != self.sizes(instance, m, rule) {
            self.wrong(&other, m, rule, &back, "the exchange has other sizes");
        }
        if self.floor(&other) != self.floor(instance) {
            self.wrong(&other, m, rule, &back, "the exchange has another floor");
        }
        if m < 32 {
            // Held and then reversed, whoever moves waits a step more before.
            let longer = reversed(k, &held(k, plan));
            let moves = |a: usize| plan[a..].iter().step_by(k).any(|&v| v != plan[a]);
            let moving = (0..k).filter(|&a| moves(a)).count() as u64;
            let waited = self.check(&other, m + 1, rule, &longer);
            if waited != Said::new(0, answer.second + moving, 0) {
                let what = format!("{waited:?}, without the wait {answer:?}");
                self.wrong(&other, m + 1, rule, &longer, &what);
            }
        }
        turned.reversed += 1;
        turned.other_cost += u64::from(answer.second != walk.cost);
    }

    /// A plan that may fail gets the same answer when held, but that the place is a row further where the last row is at
    /// fault. Reversed it passes exactly where it did.
    fn damaged(&mut self, g: &mut Generator, walk: &Walk, turned: &mut Turned) {
        let &Walk {
            instance,
            m,
            rule,
            plan,
            ..
        } = walk;
        let k = usize::from(instance[1]);
        let parts = Parts::of(instance);
        let damaged = some_plan(g, &parts, m as usize, plan);
        if damaged.len() != plan.len() {
            return;
        }
        let answer = self.check(instance, m, rule, &damaged);
        let longer = held(k, &damaged);
        let later = self.check(instance, m + 1, rule, &longer);
        let right = match answer.number {
            _ if m == 32 => Said::new(10, 0, 0),
            22 => Said::new(22, answer.second + k as u64, 0),
            _ => answer,
        };
        if later != right {
            let what = format!("held {later:?}, before {answer:?}");
            self.wrong(instance, m + 1, rule, &longer, &what);
        }
        if parts.free().is_empty() {
            let (other, back) = (exchanged(instance), reversed(k, &damaged));
            let returned = self.check(&other, m, rule, &back);
            if (returned.number == 0) != (answer.number == 0) {
                let what = format!("reversed {returned:?}, before {answer:?}");
                self.wrong(&other, m, rule, &back, &what);
            }
        }
        turned.damaged += 1;
    }

    /// What wrong programs make of the plan is told by the library's plan check.
    fn tell_reversing(&mut self, walk: &Walk) {
        let mut told = std::mem::take(&mut self.told_reversing);
        let given = (walk.instance, walk.m, walk.rule);
        told.add(
            given,
            walk.plan,
            walk.cost,
            1000,
            |instance, m, rule, plan| {
                let answer = self.check(instance, m, rule, plan);
                (answer.number, answer.second)
            },
        );
        self.told_reversing = told;
    }

    fn wrong(&self, instance: &[u8], m: u64, rule: u64, plan: &[u8], what: &str) -> ! {
        let asked = Asked {
            call: CHECK,
            instance,
            horizon: m,
            rule,
            plan: Some(plan),
            ..Asked::default()
        };
        self.fail(&asked, what)
    }
}

/// A walk of any size; most are small, and some the largest.
fn some_walk(g: &mut Generator, rule: u64) -> (Vec<u8>, Vec<u8>) {
    let (n, k, m) = match g.below(100) {
        0 => (64, 16, 31 + g.below(2)),
        _ => sizes(g),
    };
    let percent = match g.below(3) {
        // Some edges for each vertex.
        0 => (300 / n).min(100),
        _ => [10, 40, 100][g.below(3)],
    };
    match g.below(2) {
        0 => g.walk(n, k, percent, m, rule),
        _ => g.waiting_walk(n, k, percent, m, rule),
    }
}

/// n, k and m.
fn sizes(g: &mut Generator) -> (usize, usize, usize) {
    let most = [4, 6, 6, 9, 9, 16, 32, 64][g.below(8)];
    let n = match g.below(20) {
        0 => most,
        _ => 1 + g.below(most),
    };
    let most = [3, 6, 16][g.below(3)];
    let k = match g.below(10) {
        0 => n.min(16),
        _ => 1 + g.below(n.min(most)),
    };
    let m = match g.below(6) {
        0 => 31 + g.below(2),
        1 => g.below(33),
        _ => g.below(8),
    };
    (n, k, m)
}
