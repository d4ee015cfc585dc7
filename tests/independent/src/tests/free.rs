//! Agents without a goal, worked out by hand from request S-9.

use super::numbering::CLAUSES;
use super::{compare_words, counts, says, uncounted, FORMULAS, UNWRITTEN, WROTE};
use crate::calls::say;
use crate::free::{worked, Told};
use crate::questions::{Handed, CEILING_SIZE, CLAUSE, DECODER, FLOOR, PRUNED, PRUNED_SIZE};
use crate::sample::{instance_bytes, path_edges, refused_twice};
use crate::*;

/// The path 0-1-2 at m 1, with a free agent at 0 and one from 2 to 1. Agent 0 has the
/// variables 1 to 3 at time 0 and 4 to 6 at time 1, agent 1 has 7 to 9 and 10 to 12.
fn free_first() -> Vec<u8> {
    path(3, &[0, 2], &[NO_GOAL, 1])
}

fn path(n: u8, starts: &[u8], goals: &[u8]) -> Vec<u8> {
    instance_bytes(n.into(), &path_edges(n), starts, goals)
}

/// Its clauses: A, B, and those from C on, which hang on sizes, edges and horizon
/// alone and are written out in `numbering`.
fn clauses() -> Vec<Vec<i32>> {
    let ends: [&[i32]; 3] = [&[1], &[9], &[11]];
    let all = ends.iter().chain(&CLAUSES[4..]);
    all.map(|clause| clause.to_vec()).collect()
}

#[test]
fn only_255_is_free() {
    assert_eq!(NO_GOAL, 255);
    assert!((0..=255).filter(|&goal| is_free(goal)).eq([255]));
}

#[test]
fn formula_behind_a_free_agent() {
    let (instance, clauses) = (free_first(), clauses());
    assert_eq!(plain::clauses(&instance, 1, 1), clauses);
    assert_eq!(formula_size(&instance, 1, 1), counts(120, 37));
    let words = compare_words(&instance, 1, 1, false, &clauses);
    assert_eq!(
        words[..22],
        [1, 0, 9, 0, 11, 0, 1, 2, 3, 0, 7, 8, 9, 0, 4, 5, 6, 0, 10, 11, 12, 0]
    );
    for (number, literals) in clauses.iter().enumerate() {
        let mut words = [UNWRITTEN; 6];
        let length = literals.len() + 1;
        let answer = clause(&instance, 1, 1, number as u64, &mut words);
        assert_eq!(answer, says(0, length as u64));
        assert_eq!(words[..length], [&literals[..], &[0]].concat());
        assert!(words[length..].iter().all(|&word| word == UNWRITTEN));
    }
    assert_eq!(clause(&instance, 1, 1, 37, &mut [7; 66]), says(11, 37));
    assert_eq!(clause(&instance, 1, 1, 2, &mut [7; 1]), says(12, 2));
}

/// The clauses of B, and the first one of C, for goals all over the path 0-1-2-3 at
/// m 0: variables 1 to 4, 5 to 8 and 9 to 12.
#[test]
fn family_b() {
    const FREE: u8 = NO_GOAL;
    let cases: [([u8; 3], &[i32]); 8] = [
        ([3, 1, 0], &[4, 6, 9]),
        ([FREE, 1, 0], &[6, 9]),
        ([3, FREE, 0], &[4, 9]),
        ([3, 1, FREE], &[4, 6]),
        ([FREE, FREE, 0], &[9]),
        ([FREE, 1, FREE], &[6]),
        ([3, FREE, FREE], &[4]),
        ([FREE, FREE, FREE], &[]),
    ];
    for (goals, literals) in cases {
        let instance = path(4, &[0, 1, 2], &goals);
        // 3 clauses of A, 3 of C, 18 of D, 12 of E; 6, 15, 54 and 36 words.
        let added = literals.len() as u64;
        assert_eq!(
            formula_size(&instance, 0, 1),
            counts(111 + 2 * added, 36 + added)
        );
        for (number, &literal) in (3..).zip(literals) {
            let mut words = [7; 3];
            assert_eq!(clause(&instance, 0, 1, number, &mut words), says(0, 2));
            assert_eq!(words, [literal, 0, 7], "{goals:?}");
        }
        let mut words = [7; 5];
        assert_eq!(clause(&instance, 0, 1, 3 + added, &mut words), says(0, 5));
        assert_eq!(words, [1, 2, 3, 4, 0], "{goals:?}");
        let mut words = vec![7; (111 + 2 * added) as usize];
        assert_eq!(write_formula(&instance, 0, 1, &mut words), WROTE);
        let b: Vec<i32> = literals.iter().flat_map(|&x| [x, 0]).collect();
        let c = [1, 2, 3, 4, 0];
        assert_eq!(words[6..11 + b.len()], [&b[..], &c].concat(), "{goals:?}");
    }
}

#[test]
fn family_h_and_floor() {
    let instance = free_first();
    // The free agent: at time 0 not at 1 and 2, at time 1 not at 2. The other: at 2 and then at 1.
    let h = [-2, -3, -7, -8, -6, -10, -12];
    assert_eq!(pruned_size(&instance, 1, 1), counts(134, 44));
    let mut words = [7; 135];
    assert_eq!(write_pruned(&instance, 1, 1, &mut words), WROTE);
    assert_eq!(words[..120], plain::words(&clauses()));
    assert_eq!(words[120..134], h.map(|literal| [literal, 0]).concat());
    assert_eq!(words[134], 7);
    assert_eq!(floor(&instance), says(0, 1));
    // The one with a goal cannot reach it, the free one is cut off: its place is 4 + 2 + 2 + 1.
    let cut = instance_bytes(3, &[(1, 2)], &[0, 2], &[NO_GOAL, 0]);
    assert_eq!(floor(&cut), says(30, 9));
    let cut = instance_bytes(3, &[(1, 2)], &[0, 2], &[NO_GOAL, 1]);
    assert_eq!(floor(&cut), says(0, 1));
}

#[test]
fn valuations() {
    let instance = free_first();
    let plan = [0, 2, 1, 2];
    let mut entries = [7; 12];
    // The free agent has moved, the other one has not: 22, at its own place.
    assert_eq!(check_plan(&instance, 1, 1, &plan), says(22, 3));
    assert_eq!(encode(&instance, 1, 1, &plan, &mut entries), says(22, 3));
    assert_eq!(entries, [7; 12]);
    let plan = [0, 2, 0, 1];
    let valuation = [1, -2, -3, 4, -5, -6, -7, -8, 9, -10, 11, -12];
    assert_eq!(check_plan(&instance, 1, 1, &plan), says(0, 1));
    assert_eq!(encode(&instance, 1, 1, &plan, &mut entries), says(0, 12));
    assert_eq!(entries, valuation);
    let mut decoded = [7; 5];
    assert_eq!(
        decode(&instance, 1, 1, &valuation, &mut decoded),
        says(0, 4)
    );
    assert_eq!(decoded, [0, 2, 0, 1, 7]);

    let refused = |entries: [i32; 12]| {
        let mut plan = [7; 4];
        let answer = decode(&instance, 1, 1, &entries, &mut plan);
        assert_eq!(plan, [7; 4]);
        answer
    };
    // The free agent is not at its start; the other is not at its goal, clause 2.
    let elsewhere = [-1, 2, -3, 4, -5, -6, -7, -8, 9, -10, 11, -12];
    assert_eq!(refused(elsewhere), says(24, 0));
    let away = [1, -2, -3, 4, -5, -6, -7, -8, 9, -10, -11, 12];
    assert_eq!(refused(away), says(24, 2));
    // The free agent is nowhere at time 1: C begins at 3. At two vertices: D begins at 7, and its third block is it.
    let nowhere = [1, -2, -3, -4, -5, -6, -7, -8, 9, -10, 11, -12];
    assert_eq!(refused(nowhere), says(24, 5));
    let twice = [1, -2, -3, 4, -5, 6, -7, -8, 9, -10, 11, -12];
    assert_eq!(refused(twice), says(24, 14));
    // Beside the other: E begins at 19. It jumps: F begins at 25.
    let beside = [1, -2, -3, -4, 5, -6, -7, -8, 9, -10, 11, -12];
    assert_eq!(refused(beside), says(24, 23));
    let jumps = [1, -2, -3, -4, -5, 6, -7, -8, 9, -10, 11, -12];
    assert_eq!(refused(jumps), says(24, 25));
}

/// All agents are free: any valid steps from the starts pass.
#[test]
fn all_free() {
    let pair = [2, 1, 1, 0, 0, 1, 0, NO_GOAL];
    let mut words = [7; 23];
    assert_eq!(formula_size(&pair, 1, 1), counts(22, 7));
    assert_eq!(write_formula(&pair, 1, 1, &mut words), WROTE);
    assert_eq!(
        words,
        [1, 0, 1, 2, 0, 3, 4, 0, -1, -2, 0, -3, -4, 0, -1, 3, 4, 0, -2, 4, 3, 0, 7]
    );
    assert_eq!(pruned_size(&pair, 1, 1), counts(24, 8));
    assert_eq!(floor(&pair), says(0, 0));
    for (plan, cost) in [([0, 0], 0), ([0, 1], 1)] {
        assert_eq!(check_plan(&pair, 1, 1, &plan), says(0, cost));
    }
    assert_eq!(check_plan(&pair, 1, 1, &[1, 0]), says(18, 0));
    assert_eq!(check_plan(&pair, 0, 1, &[0]), says(0, 0));
    let alone = [1, 1, 0, 0, 0, NO_GOAL];
    assert_eq!(formula_size(&alone, 0, 1), counts(4, 2));
    assert_eq!(pruned_size(&alone, 0, 1), counts(4, 2));
    assert_eq!(check_plan(&alone, 32, 1, &[0; 33]), says(0, 0));
    // 16 of them, in the middle of the largest map: 32 words fewer.
    let agents: Vec<u8> = (24..40).collect();
    let sixteen = instance_bytes(64, &[], &agents, &[NO_GOAL; 16]);
    assert_eq!(check_instance(&sixteen, 32, 1), says(0, 0));
    assert_eq!(floor(&sixteen), says(0, 0));
}

/// What a free agent does counts as for any other.
#[test]
fn cost_of_a_free_agent() {
    let instance = path(4, &[0, 3], &[NO_GOAL, 3]);
    let cost = |plan: &[u8]| check_plan(&instance, plan.len() as u64 / 2 - 1, 1, plan);
    assert_eq!(cost(&[0, 3]), says(0, 0));
    assert_eq!(cost(&[0, 3, 0, 3, 0, 3]), says(0, 0));
    assert_eq!(cost(&[0, 3, 1, 3, 1, 3]), says(0, 1));
    assert_eq!(cost(&[0, 3, 0, 3, 1, 3]), says(0, 2));
    assert_eq!(cost(&[0, 3, 1, 3, 0, 3]), says(0, 2));
    // 3 and 2.
    assert_eq!(cost(&[0, 3, 0, 2, 0, 3, 1, 3]), says(0, 5));
}

/// Goals of 255 any number of times; 254, vertices beyond the map and goals that
/// are there twice are refused; of the starts nothing has changed.
#[test]
fn questions_8_and_9() {
    let check = |starts: &[u8], goals: &[u8]| {
        let instance = path(4, starts, goals);
        let answer = check_instance(&instance, 0, 1);
        for (size, _) in FORMULAS {
            let said = size(&instance, 0, 1);
            assert!(answer.number == 0 && said.number == 0 || said == uncounted(answer));
        }
        answer
    };
    let starts = [0, 1, 2];
    // 3 edges: the starts stand at 10, the goals at 13.
    for goals in [
        [255, 1, 2],
        [0, 255, 2],
        [0, 1, 255],
        [255, 255, 2],
        [255, 1, 255],
        [0, 255, 255],
        [255, 255, 255],
    ] {
        assert_eq!(check(&starts, &goals), says(0, 0), "{goals:?}");
    }
    assert_eq!(check(&starts, &[254, 1, 2]), says(9, 13));
    assert_eq!(check(&starts, &[255, 254, 2]), says(9, 14));
    assert_eq!(check(&starts, &[255, 255, 254]), says(9, 15));
    assert_eq!(check(&starts, &[255, 4, 255]), says(9, 14));
    assert_eq!(check(&starts, &[1, 255, 1]), says(9, 15));
    assert_eq!(check(&starts, &[255, 2, 2]), says(9, 15));
    assert_eq!(check(&[255, 1, 2], &[255; 3]), says(8, 10));
    assert_eq!(check(&[0, 1, 255], &[255; 3]), says(8, 12));
    assert_eq!(check(&[3, 1, 3], &[255, 0, 255]), says(8, 12));
    assert_eq!(check(&[3, 3, 1], &[255, 0, 2]), says(8, 11));
}

/// Adds what a call says when it is handed this.
fn add(told: &mut Told, call: usize, handed: &Handed) {
    let (words, plan) = (vec![UNWRITTEN; handed.lent], vec![7; handed.lent]);
    let again = |instance: &[u8]| say(call, instance, handed, words.clone(), plan.clone());
    told.add(call, handed, &again(handed.instance), again);
}

/// Adds what every call says of one instance and plan.
fn add_all(told: &mut Told, instance: &[u8], horizon: u64, rule: u64, plan: &[u8], clause: u64) {
    let [n, k] = [0, 1].map(|size| usize::from(instance[size]));
    let entries = plain::valuation(n, k.max(1), plan);
    for call in 0..CEILING_SIZE {
        let handed = Handed {
            instance,
            horizon: if call == FLOOR { 0 } else { horizon },
            rule,
            clause: (call == CLAUSE).then_some(clause),
            plan,
            entries: &entries,
            text: b"s UNKNOWN",
            lent: 2_000,
            pruned: matches!(call, PRUNED | PRUNED_SIZE),
            ..Handed::default()
        };
        add(told, call, &handed);
    }
}

/// The plans and valuations worked out by hand. With refusals and a few plans more
/// they tell every program that is wrong about free agents from the right one.
#[test]
fn worked_plans() {
    let mut told = Told::default();
    for worked in worked() {
        let (instance, m) = (&worked.instance, worked.m);
        let [n, k] = [0, 1].map(|size| usize::from(instance[size]));
        for &(plan, checked, decoded) in worked.plans {
            assert_eq!(check_plan(instance, m, 1, plan), says(checked.0, checked.1));
            let count = n * plan.len();
            let mut entries = vec![7; count];
            let encoded = match checked.0 {
                0 => says(0, count as u64),
                _ => says(checked.0, checked.1),
            };
            assert_eq!(encode(instance, m, 1, plan, &mut entries), encoded);
            let valuation = plain::valuation(n, k, plan);
            if checked.0 == 0 {
                assert_eq!(entries, valuation);
            }
            let mut bytes = vec![7; plan.len()];
            let answer = decode(instance, m, 1, &valuation, &mut bytes);
            assert_eq!(answer, says(decoded.0, decoded.1), "{plan:?}");
            if decoded.0 == 0 {
                assert_eq!(bytes, plan);
            }
            for number in 0..=formula_size(instance, m, 1).clauses {
                add_all(&mut told, instance, m, 1, plan, number);
            }
        }
    }
    for (instance, m, rule, _) in refused_twice() {
        add_all(&mut told, &instance, m, rule, &[0, 1, 0], 0);
    }
    // Out of reach, with a goal on vertex 0.
    let apart = instance_bytes(3, &[], &[1, 2], &[NO_GOAL, 0]);
    add_all(&mut told, &apart, 0, 1, &[1, 2], 0);
    // D: a free agent at two vertices.
    let twice = [1, -2, -3, 4, -5, 6, -7, -8, 9, -10, 11, -12];
    let instance = free_first();
    let handed = Handed {
        instance: &instance,
        horizon: 1,
        rule: 1,
        entries: &twice,
        lent: 4,
        ..Handed::default()
    };
    add(&mut told, DECODER, &handed);
    assert_eq!(told.missing(), [""; 0]);
}
