//! The movement rule, worked out by hand from request S-10.

use super::cross::{all_plans, compare_decoder, compare_formula, compare_plan};
use super::numbering::CLAUSES;
use super::occupied::compare_occupied;
use super::questions::refused_under;
use super::{compare_words, counts, says, RULES, UNWRITTEN, WROTE};
use crate::calls::say;
use crate::closing::exchange;
use crate::parts::{enter_occupied, Parts};
use crate::questions::{Handed, CEILING_SIZE, CLAUSE, FLOOR, NUMBERS, PRUNED, PRUNED_SIZE};
use crate::rules::worked;
use crate::sample::{all_edges, instance_bytes, largest_instance, path_edges};
use crate::sample::{refused_twice, Generator, WRONG_RULES};
use crate::wrong_rules::Told;
use crate::*;
use std::collections::BTreeSet;

fn path(n: u8, starts: &[u8], goals: &[u8]) -> Vec<u8> {
    instance_bytes(n.into(), &path_edges(n), starts, goals)
}

/// The plan check under rules 1 and 2.
fn checked(instance: &[u8], m: u64, plan: &[u8]) -> [Answer; 2] {
    RULES.map(|rule| check_plan(instance, m, rule, plan))
}

#[test]
fn a_file_of_two() {
    let instance = path(3, &[0, 1], &[1, 2]);
    let plan = [0, 1, 1, 2];
    assert_eq!(checked(&instance, 1, &plan), [says(26, 2), says(0, 2)]);
    let mut entries = [7; 12];
    assert_eq!(encode(&instance, 1, 1, &plan, &mut entries), says(26, 2));
    assert_eq!(entries, [7; 12]);
    assert_eq!(encode(&instance, 1, 2, &plan, &mut entries), says(0, 12));
    let valuation = [1, -2, -3, -4, 5, -6, -7, 8, -9, -10, -11, 12];
    assert_eq!(entries, valuation);
    let mut decoded = [7; 4];
    let refused = decode(&instance, 1, 1, &valuation, &mut decoded);
    assert_eq!((refused, decoded), (says(24, 33), [7; 4]));
    let accepted = decode(&instance, 1, 2, &valuation, &mut decoded);
    assert_eq!((accepted, decoded), (says(0, 4), plan));
}

#[test]
fn an_exchange() {
    let instance = path(2, &[0, 1], &[1, 0]);
    assert_eq!(checked(&instance, 1, &[0, 1, 1, 0]), [says(25, 2); 2]);
    assert_eq!(formula_size(&instance, 1, 1), counts(72, 24));
    assert_eq!(formula_size(&instance, 1, 2), counts(70, 22));
    // The lowest of those that exchange is not the lowest agent, and the exchange is not in the first step.
    let instance = path(4, &[0, 3, 2], &[0, 2, 3]);
    let plan = [0, 3, 2, 1, 3, 2, 0, 2, 3];
    assert_eq!(checked(&instance, 2, &plan), [says(25, 7); 2]);
}

#[test]
fn a_triangle_turns() {
    let instance = instance_bytes(3, &all_edges(3), &[0, 1, 2], &[1, 2, 0]);
    let plan = [0, 1, 2, 1, 2, 0];
    assert_eq!(checked(&instance, 1, &plan), [says(26, 3), says(0, 3)]);
}

#[test]
fn onto_one_that_stays() {
    // The one that stays is the higher agent, or the lower one.
    let instance = path(3, &[0, 1], &[1, 2]);
    let plan = [0, 1, 1, 1];
    assert_eq!(checked(&instance, 1, &plan), [says(20, 2), says(21, 3)]);
    let instance = path(3, &[1, 0], &[1, 2]);
    let plan = [1, 0, 1, 1];
    assert_eq!(checked(&instance, 1, &plan), [says(20, 3), says(21, 3)]);
}

/// 2 to 16 agents go on by one vertex, the last or the first of them as agent 0; then
/// the head stays.
#[test]
fn files_close_up() {
    for k in 2..=16u8 {
        let file = |agents: Vec<u8>, head: u8| {
            let ahead = agents.iter().map(|&v| if v + 1 < k { v + 1 } else { head });
            let ends: Vec<u8> = ahead.collect();
            let instance = path(k + 1, &agents, &[NO_GOAL; 16][..k.into()]);
            check_plan(&instance, 1, 2, &[agents, ends].concat())
        };
        let (forward, back): (Vec<u8>, Vec<u8>) = ((0..k).collect(), (0..k).rev().collect());
        let cost = u64::from(k);
        assert_eq!(file(forward.clone(), k), says(0, cost));
        assert_eq!(file(back.clone(), k), says(0, cost));
        // The last agent stays on the vertex that the one before it enters; or agent 0 does.
        assert_eq!(file(forward, k - 1), says(21, cost + cost - 1));
        assert_eq!(file(back, k - 1), says(21, cost + 1));
    }
}

/// 2 to 16 agents in a ring go on by one vertex, either way; only two cannot.
#[test]
fn rings_turn() {
    for k in 2..=16u8 {
        let agents: Vec<u8> = (0..k).collect();
        let free = [NO_GOAL; 16];
        let instance = instance_bytes(k.into(), &all_edges(k.into()), &agents, &free[..k.into()]);
        let said = match k {
            2 => says(25, 2),
            _ => says(0, k.into()),
        };
        for by in [1, k - 1] {
            let turned = agents.iter().map(|v| (v + by) % k);
            let plan: Vec<u8> = agents.iter().copied().chain(turned).collect();
            assert_eq!(check_plan(&instance, 1, 2, &plan), said);
        }
    }
}

/// The path 0-1-2 at m 1 with two agents: 1 to 3 and 4 to 6 are agent 0's variables, 7
/// to 9 and 10 to 12 agent 1's. Families A to F are those of `numbering`.
#[test]
fn family_g() {
    let instance = path(3, &[0, 2], &[1, 2]);
    let g: [&[i32]; 4] = [
        &[-1, -5, -8, -10],
        &[-7, -11, -2, -4],
        &[-2, -6, -9, -11],
        &[-8, -12, -3, -5],
    ];
    let all = CLAUSES[..32].iter().chain(&g);
    let clauses: Vec<Vec<i32>> = all.map(|clause| clause.to_vec()).collect();
    assert_eq!(plain::clauses(&instance, 1, 2), clauses);
    compare_words(&instance, 1, 2, false, &clauses);
    compare_formula(&instance, 1, 2, &clauses);
    // The pair at m 2: agent 0 has 1 to 6, agent 1 has 7 to 12. G begins at 30, and time comes first.
    let instance = path(2, &[0, 1], &[0, 1]);
    let g = [
        [-1, -4, -8, -9, 0],
        [-7, -10, -2, -3, 0],
        [-3, -6, -10, -11, 0],
        [-9, -12, -4, -5, 0],
    ];
    for (number, expected) in (30..).zip(g) {
        let mut words = [UNWRITTEN; 5];
        assert_eq!(
            clause(&instance, 2, 2, number, &mut words[..4]),
            says(12, 5)
        );
        assert_eq!(words, [UNWRITTEN; 5]);
        assert_eq!(clause(&instance, 2, 2, number, &mut words), says(0, 5));
        assert_eq!(words, expected);
    }
    assert_eq!(clause(&instance, 2, 2, 34, &mut [7; 5]), says(11, 34));
}

/// The largest formula: 16 + 16 + 528 + 1,064,448 + 253,440 + 32,768 clauses and then
/// 32·2016·240 of family G, with 6,150,736 words before it.
#[test]
fn largest_formula() {
    let instance = largest_instance();
    assert_eq!(
        formula_size(&instance, 32, 2),
        counts(83_565_136, 16_834_096)
    );
    let mut words = vec![UNWRITTEN; 83_565_137];
    assert_eq!(
        write_formula(&instance, 32, 2, &mut words[..83_565_135]),
        says(12, 83_565_136)
    );
    assert_eq!(write_formula(&instance, 32, 2, &mut words), WROTE);
    assert_eq!(words[83_565_136], UNWRITTEN);
    let before = plain::words(&plain::clauses(&instance, 32, 0));
    assert!(before.len() == 6_150_736 && words[..before.len()] == before);
    let (mut at, mut number) = (before.len(), 1_351_216);
    for t in 0..32 {
        for (u, v) in all_edges(64) {
            for (a, b) in (0..16).flat_map(|a| (0..16).map(move |b| (a, b))) {
                if a == b {
                    continue;
                }
                let x = |t: i32, a: i32, v: u8| -(1 + (a * 33 + t) * 64 + i32::from(v));
                let clause = [x(t, a, u), x(t + 1, a, v), x(t, b, v), x(t + 1, b, u), 0];
                assert!(words[at..at + 5] == clause, "{number}");
                if number % 1_999 == 0 {
                    let mut one = [7; 5];
                    let answer = crate::clause(&instance, 32, 2, number, &mut one);
                    assert_eq!((answer, one), (says(0, 5), clause));
                }
                at += 5;
                number += 1;
            }
        }
    }
    assert_eq!((at, number), (83_565_136, 16_834_096));
}

/// 31 comes after 10 and before all else.
#[test]
fn question_31() {
    let pair = [2, 1, 1, 0, 0, 1, 0, 1];
    for rule in WRONG_RULES {
        assert_eq!(refused_under(&pair, 1, rule), says(31, 0));
        assert_eq!(refused_under(&pair, 33, rule), says(10, 0));
        assert_eq!(refused_under(&pair, u64::MAX, rule), says(10, 0));
        assert_eq!(clause(&pair, 1, rule, u64::MAX, &mut []), says(31, 0));
        assert_eq!(write_formula(&pair, 1, rule, &mut []), says(31, 0));
        assert_eq!(check_plan(&pair, 1, rule, &[9; 3]), says(31, 0));
        assert_eq!(decode(&pair, 1, rule, &[9; 3], &mut []), says(31, 0));
        assert_eq!(encode(&pair, 1, rule, &[9; 3], &mut []), says(31, 0));
        assert_eq!(read_valuation(&pair, 1, rule, b"x", &mut []), says(31, 0));
    }
    for (instance, m, rule, [(number, place), _]) in refused_twice() {
        assert_eq!(check_instance(&instance, m, rule), says(number, place));
    }
    for rule in 0..=300 {
        let number = if rule == 1 || rule == 2 { 0 } else { 31 };
        assert_eq!(check_instance(&pair, 1, rule), says(number, 0));
    }
}

/// Every step of three agents and of four from some rows, on every map of four
/// vertices: against the questions, the clauses and the plain meaning.
#[test]
fn all_steps() {
    let mut times = [0; NUMBERS];
    let possible = all_edges(4);
    let rows: [&[u8]; 4] = [&[0, 1, 2], &[3, 1, 0], &[0, 1, 2, 3], &[2, 0, 3, 1]];
    for graph in 0..1 << possible.len() {
        let chosen = (0..possible.len()).filter(|j| graph >> j & 1 == 1);
        let edges: Vec<(u8, u8)> = chosen.map(|j| possible[j]).collect();
        for starts in rows {
            let k = starts.len();
            let instance = instance_bytes(4, &edges, starts, &[NO_GOAL; 4][..k]);
            let clauses = plain::clauses(&instance, 1, 2);
            for next in all_plans(4, k) {
                let plan = [starts, &next[..]].concat();
                let (answer, items) = compare_occupied(&instance, 1, 2, &plan);
                assert!(items.iter().all(|item| item.0 == 25));
                times[answer.number as usize] += 1;
                let passes = compare_plan(&instance, 1, 2, &plan);
                let entries = plain::valuation(4, k, &plan);
                let decoded = compare_decoder(&instance, 1, 2, &clauses, &entries);
                assert_eq!(passes, decoded);
            }
        }
    }
    let seen = (0..NUMBERS).filter(|&number| times[number] > 0);
    assert_eq!(seen.collect::<Vec<_>>(), [0, 19, 21, 25]);
}

/// Walks under rule 2 have files and rings; damaged, they have exchanges and sharings,
/// of which the questions tell the same as the calls.
#[test]
fn walks_and_exchanges() {
    let mut random = Generator::new(43);
    let (mut files, mut rings) = (0, 0);
    for k in 2..=16 {
        let mut seen = BTreeSet::new();
        for i in 0..300 {
            let n = k + random.below(8);
            let m = 1 + random.below(3);
            let percent = 20 + random.below(81);
            let (instance, plan) = random.walk(n, k, percent, m, 2);
            assert!(compare_plan(&instance, m as u64, 2, &plan));
            match check_plan(&instance, m as u64, 1, &plan).number {
                26 => files += 1,
                number => assert_eq!(number, 0),
            }
            // All vertices are taken: whoever moves is in a ring.
            rings += usize::from(n == k && plan[..k] != plan[k..2 * k]);
            let parts = Parts::of(&instance);
            let way = [20, 25, 26][i % 3];
            if let Some(plan) = enter_occupied(&mut random, way, &parts, &plan) {
                let (answer, items) = compare_occupied(&instance, m as u64, 2, &plan);
                seen.insert(answer.number);
                assert!(answer.number != 25 || items[0] == (25, answer.second));
            }
            if let Some((instance, plan)) = exchange(&mut random, &parts, &plan) {
                let (answer, items) = compare_occupied(&instance, m as u64, 2, &plan);
                assert_eq!((answer.number, answer.second), items[0]);
                assert_eq!(answer.number, 25);
                let entries = plain::valuation(n, k, &plan);
                let mut lent = vec![7; plan.len()];
                let answer = decode(&instance, m as u64, 2, &entries, &mut lent);
                let family = Parts::of(&instance).family(m, 2, answer.second);
                assert_eq!((answer.number, family), (24, 6));
            }
        }
        assert!(seen.contains(&25) && seen.contains(&21), "{k}: {seen:?}");
    }
    assert!(files > 1_000 && rings > 20, "{files} {rings}");
}

/// Adds what every call says of one instance and plan.
fn add_all(
    told: &mut Told,
    instance: &[u8],
    (horizon, rule): (u64, u64),
    plan: &[u8],
    clause: u64,
) {
    let [n, k] = [0, 1].map(|size| instance.get(size).map_or(1, |&x| usize::from(x)));
    let entries = plain::valuation(n, k.max(1), plan);
    for call in 0..CEILING_SIZE {
        let handed = Handed {
            instance,
            horizon: if call == FLOOR { 0 } else { horizon },
            rule,
            clause: (call == CLAUSE).then_some(clause),
            plan,
            entries: &entries,
            text: b"s UNKNOWN",
            // Too short where the rule is none, so that more than the rule is wrong.
            lent: if RULES.contains(&rule) { 2_000 } else { 1 },
            pruned: matches!(call, PRUNED | PRUNED_SIZE),
            ..Handed::default()
        };
        let said = |rule: u64| {
            let under = Handed { rule, ..handed };
            let (words, plan) = (vec![UNWRITTEN; under.lent], vec![7; under.lent]);
            say(call, instance, &under, words, plan)
        };
        told.add(call, &handed, &said(rule), said);
    }
}

/// The plans worked out by hand, under both rules and under those that are none. With
/// refusals they tell every program that is wrong about the rule from the right one.
#[test]
fn worked_plans() {
    let mut told = Told::default();
    for worked in worked() {
        let (instance, m) = (&worked.instance, worked.m);
        let k = usize::from(instance[1]);
        for &(plan, answers, decoded) in worked.plans {
            for (rule, at) in RULES.into_iter().zip(0..) {
                let (number, second) = answers[at];
                assert_eq!(check_plan(instance, m, rule, plan), says(number, second));
                assert_eq!(compare_plan(instance, m, rule, plan), number == 0);
                let entries = plain::valuation(instance[0].into(), k, plan);
                let clauses = plain::clauses(instance, m, rule);
                compare_decoder(instance, m, rule, &clauses, &entries);
                let mut lent = vec![7; plan.len()];
                let answer = decode(instance, m, rule, &entries, &mut lent);
                assert_eq!(answer, says(decoded[at].0, decoded[at].1), "{plan:?}");
                for number in 0..=formula_size(instance, m, rule).clauses {
                    add_all(&mut told, instance, (m, rule), plan, number);
                }
            }
            for rule in WRONG_RULES {
                add_all(&mut told, instance, (m, rule), plan, u64::MAX);
                add_all(&mut told, instance, (m, rule), &plan[1..], 0);
            }
        }
    }
    for (instance, m, rule, _) in refused_twice() {
        add_all(&mut told, &instance, (m, rule), &[0, 1, 0], 0);
    }
    assert_eq!(told.missing(), [""; 0]);
}
