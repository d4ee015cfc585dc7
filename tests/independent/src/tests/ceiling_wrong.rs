//! Programs that are wrong about the ceiling.

use super::ceiling::WRONG_CEILINGS;
use super::{RULES, UNWRITTEN};
use crate::calls::say;
use crate::output::output;
use crate::plain;
use crate::plain_ceiling::valuation;
use crate::questions::{has_ceiling, Handed, ASKED};
use crate::sample::{instance_bytes, path_edges, refused_twice, Generator, WRONG_RULES};
use crate::wrong_ceiling::Told;
use crate::wrong_designs::{Sizes, RIGHT, WRONG};
use crate::wrong_formula::Formula;
use crate::{plain_ceiling, NO_GOAL};

/// What every call with a ceiling is handed.
#[derive(Clone, Copy)]
struct Given<'a> {
    instance: &'a [u8],
    m: u64,
    rule: u64,
    c: u64,
}

fn add(told: &mut Told, given: Given, plan: &[u8], entries: &[i32], text: &[u8], lent: usize) {
    for call in (0..ASKED.len()).filter(|&call| has_ceiling(call)) {
        let handed = Handed {
            instance: given.instance,
            horizon: given.m,
            rule: given.rule,
            plan,
            entries,
            text,
            lent,
            ceiling: Some(given.c),
            ..Handed::default()
        };
        let again = |rule: u64, c: u64| {
            let other = Handed {
                rule,
                ceiling: Some(c),
                ..handed
            };
            let (words, bytes) = (vec![UNWRITTEN; lent], vec![7; lent]);
            say(call, given.instance, &other, words, bytes)
        };
        told.add(call, &handed, &again(given.rule, given.c), again);
    }
}

/// A plan and its valuations, right ones and ones in which an entry is other, lengths
/// that are right and wrong.
fn add_plan(told: &mut Told, given: Given, plan: &[u8]) {
    let [n, k] = [0, 1].map(|size| usize::from(given.instance[size]));
    let entries = valuation(n, k, given.c.min(512), plan);
    let count = n * plan.len();
    let text = output(&entries, 78);
    add(told, given, plan, &entries, &text, 2_000);
    add(told, given, plan, &entries[..count], &text, count);
    add(told, given, plan, &entries, b"s UNKNOWN", count);
    if entries.len() > 60 {
        return;
    }
    for i in 0..entries.len() {
        let mut changed = entries.clone();
        changed[i] = -changed[i];
        let short = output(&entries[..i], 78);
        add(told, given, plan, &changed, &short, 2_000);
    }
}

/// Plans of all costs on a path of three, by one agent, two and three, with ceilings
/// around the cost, and refusals, tell every wrong program from the right one.
#[test]
fn told_apart() {
    let mut told = Told::default();
    let mut random = Generator::new(1201);
    for turn in 0..60 {
        let rule = RULES[turn % 2];
        let (n, m) = (2 + random.below(3), random.below(5));
        let k = 1 + random.below(n.min(3));
        let (instance, plan) = random.waiting_walk(n, k, 100, m, rule);
        let cost = plain::cost(&instance, m as u64, &plan) as u64;
        let near = [cost, cost.saturating_sub(1), cost + 1, (m * k) as u64, 128];
        for c in near.into_iter().chain(WRONG_CEILINGS) {
            let given = Given {
                instance: &instance,
                m: m as u64,
                rule,
                c,
            };
            if c < 129 {
                add_plan(&mut told, given, &plan);
                let other = Given {
                    rule: 3 - rule,
                    ..given
                };
                add_plan(&mut told, other, &plan);
            } else {
                let entries = plain::valuation(n, k, &plan);
                add(&mut told, given, &plan[1..], &entries, b"", 3);
            }
            // The goals missed, a jump, and too dear.
            let mut wrong = plan.clone();
            let at = random.below(plan.len());
            wrong[at] = random.below(n) as u8;
            add(&mut told, given, &wrong, &[], b"", 2_000);
        }
    }
    let path = instance_bytes(3, &path_edges(3), &[0, 1], &[NO_GOAL, 2]);
    for (rule, c) in WRONG_RULES
        .into_iter()
        .flat_map(|rule| WRONG_CEILINGS.map(|c| (rule, c)))
        .chain([(1, 2), (2, 1), (0, 0), (3, 1)])
    {
        for m in [0, 1, 33] {
            let given = Given {
                instance: &path,
                m,
                rule,
                c,
            };
            add(&mut told, given, &[0, 1, 1, 2], &[1, -2], b"s UNKNOWN", 3);
        }
    }
    for (instance, m, rule, _) in refused_twice() {
        for c in [0, 129, u64::MAX] {
            let given = Given {
                instance: &instance,
                m,
                rule,
                c,
            };
            add(&mut told, given, &[0, 1, 0], &[1, -2], b"", 5);
        }
    }
    assert_eq!(told.missing(), [""; 0]);
}

/// What is right by the one way is right by the other, and each wrong design is another
/// formula, somewhere.
#[test]
fn designs() {
    let mut other = [0; WRONG.len()];
    for (n, k, m) in (1..4).flat_map(|n| (1..4).flat_map(move |k| (0..6).map(move |m| (n, k, m)))) {
        for c in 0..=m * k + 2 {
            let sizes = Sizes { n, k, m, c };
            let right = plain_ceiling::added(n, k, m, c);
            let formula = Formula::new(sizes, RIGHT);
            assert_eq!(formula.variables, right.variables);
            assert_eq!(formula.clauses, right.clauses);
            for (times, (_, _, design)) in other.iter_mut().zip(WRONG) {
                *times += usize::from(Formula::new(sizes, design).clauses != right.clauses);
            }
        }
    }
    assert!(other.iter().all(|&times| times > 0), "{other:?}");
}
