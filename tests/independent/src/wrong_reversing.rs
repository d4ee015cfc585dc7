//! What wrong programs might hold, reverse or exchange, and how many plans tell them.

use crate::questions::Item;
use crate::reversing::{cut, exchanged, reversed};

/// Wrong holding of a plan for this instance.
type Hold = fn(&[u8], &[u8]) -> Vec<u8>;
const HOLDS: [(&str, Hold); 6] = [
    ("held: the first row at the end", |instance, plan| {
        [plan, &plan[..agents(instance)]].concat()
    }),
    // It passes, but whoever moves does so a step later.
    ("held: the first row twice", |instance, plan| {
        [&plan[..agents(instance)], plan].concat()
    }),
    ("held: the goals at the end", |instance, plan| {
        [plan, cut(instance).2].concat()
    }),
    ("held: the last byte alone", |_, plan| {
        [plan, &plan[plan.len() - 1..]].concat()
    }),
    ("held: the last byte for all agents", |instance, plan| {
        [plan, &vec![plan[plan.len() - 1]; agents(instance)]].concat()
    }),
    ("held: nothing added", |_, plan| plan.to_vec()),
];

/// Wrong reversing of a plan of k agents.
type Reverse = fn(usize, &[u8]) -> Vec<u8>;
const REVERSES: [(&str, Reverse); 7] = [
    ("reversed: all bytes", |_, plan| {
        plan.iter().rev().copied().collect()
    }),
    ("reversed: the agents in each row", |k, plan| {
        let rows = plan.chunks_exact(k);
        rows.flat_map(|row| row.iter().rev().copied()).collect()
    }),
    ("reversed: the first row in its place", |k, plan| {
        [&plan[..k], &reversed(k, &plan[k..])].concat()
    }),
    ("reversed: the last row in its place", |k, plan| {
        let last = plan.len() - k;
        [&reversed(k, &plan[..last]), &plan[last..]].concat()
    }),
    ("reversed: the first and the last row alone", |k, plan| {
        let mut plan = plan.to_vec();
        let last = plan.len() - k;
        for a in 0..k {
            plan.swap(a, last + a);
        }
        plan
    }),
    ("reversed: the last row left out", |k, plan| {
        reversed(k, &plan[..plan.len() - k])
    }),
    ("reversed: nothing", |_, plan| plan.to_vec()),
];

/// Wrong exchanging of an instance's starts and goals.
type Exchange = fn(&[u8]) -> Vec<u8>;
const EXCHANGES: [(&str, Exchange); 8] = [
    ("exchanged: goals over starts", |instance| {
        let (before, _, goals) = cut(instance);
        [before, goals, goals].concat()
    }),
    ("exchanged: starts over goals", |instance| {
        let (before, starts, _) = cut(instance);
        [before, starts, starts].concat()
    }),
    ("exchanged: agent 0 alone", |instance| {
        of(instance, |a| a == 0)
    }),
    ("exchanged: all but agent 0", |instance| {
        of(instance, |a| a > 0)
    }),
    ("exchanged: all but the last agent", |instance| {
        of(instance, |a| a + 1 < agents(instance))
    }),
    ("exchanged: the places one byte early", |instance| {
        turned(instance, agents(instance) - 1)
    }),
    ("exchanged: the places one byte late", |instance| {
        turned(instance, agents(instance) + 1)
    }),
    ("exchanged: nothing", |instance| instance.to_vec()),
];

fn agents(instance: &[u8]) -> usize {
    usize::from(instance[1])
}

/// Starts and goals of these agents alone are exchanged.
fn of(instance: &[u8], chosen: impl Fn(usize) -> bool) -> Vec<u8> {
    let (k, mut bytes) = (agents(instance), instance.to_vec());
    let starts = bytes.len() - 2 * k;
    for a in (0..k).filter(|&a| chosen(a)) {
        bytes.swap(starts + a, starts + k + a);
    }
    bytes
}

/// Starts and goals as one list, with so many bytes of its beginning moved to its end.
fn turned(instance: &[u8], by: usize) -> Vec<u8> {
    let mut bytes = instance.to_vec();
    let starts = bytes.len() - 2 * agents(instance);
    bytes[starts..].rotate_left(by);
    bytes
}

/// How many plans tell each wrong program from the right one.
#[derive(Default)]
pub struct Told {
    holds: [u64; HOLDS.len()],
    reverses: [u64; REVERSES.len()],
    exchanges: [u64; EXCHANGES.len()],
}

impl Told {
    /// Adds a plan that passes, with its cost. The plan check, which is given instance,
    /// horizon, rule and plan, is asked about what each wrong program makes; those that
    /// were told `enough` times are left out. Below 32 the plan is held; where every
    /// agent has a goal, it is reversed.
    pub fn add(
        &mut self,
        (instance, m, rule): (&[u8], u64, u64),
        plan: &[u8],
        cost: u64,
        enough: u64,
        mut check: impl FnMut(&[u8], u64, u64, &[u8]) -> Item,
    ) {
        if m < 32 {
            for (times, (_, hold)) in self.holds.iter_mut().zip(HOLDS) {
                if *times < enough {
                    let answer = check(instance, m + 1, rule, &hold(instance, plan));
                    *times += u64::from(answer != (0, cost));
                }
            }
        }
        if cut(instance).2.iter().any(|&goal| crate::is_free(goal)) {
            return;
        }
        let k = agents(instance);
        let (other, back) = (exchanged(instance), reversed(k, plan));
        for (times, (_, reverse)) in self.reverses.iter_mut().zip(REVERSES) {
            if *times < enough {
                let answer = check(&other, m, rule, &reverse(k, plan));
                *times += u64::from(answer.0 != 0);
            }
        }
        for (times, (_, exchange)) in self.exchanges.iter_mut().zip(EXCHANGES) {
            if *times < enough {
                let answer = check(&exchange(instance), m, rule, &back);
                *times += u64::from(answer.0 != 0);
            }
        }
    }

    /// The names of the wrong programs, and how many plans tell each of them.
    pub fn times(&self) -> impl Iterator<Item = (&'static str, u64)> + '_ {
        let holds = HOLDS.iter().map(|wrong| wrong.0).zip(self.holds);
        let reverses = REVERSES.iter().map(|wrong| wrong.0).zip(self.reverses);
        let exchanges = EXCHANGES.iter().map(|wrong| wrong.0).zip(self.exchanges);
        holds.chain(reverses).chain(exchanges)
    }

    /// The names of those that no plan tells.
    pub fn missing(&self) -> Vec<&'static str> {
        let missing = self.times().filter(|&(_, times)| times == 0);
        missing.map(|(name, _)| name).collect()
    }
}
