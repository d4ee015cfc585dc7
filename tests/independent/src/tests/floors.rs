//! The floor and the pruned formula.

use super::{compare_words, counts, says, uncounted, RULES, WROTE};
use crate::floors::{worked, worked_h, Told};
use crate::questions::{failing, Handed};
use crate::sample::Generator;
use crate::sample::{all_edges, grid_edges, instance_bytes, largest_instance, path_edges};
use crate::*;
use std::collections::BTreeSet;

const PAIR: [u8; 8] = [2, 1, 1, 0, 0, 1, 0, 1];

fn path(n: u8, starts: &[u8], goals: &[u8]) -> Vec<u8> {
    instance_bytes(n.into(), &path_edges(n), starts, goals)
}

#[test]
fn worked_floors() {
    let mut told = Told::default();
    for (instance, (number, second)) in worked() {
        assert_eq!(floor(&instance), says(number, second), "{instance:?}");
        told.floor(&instance, (number, second));
    }
    for (instance, m, literals) in worked_h() {
        let clauses = literals.iter().map(|&literal| vec![literal]);
        assert_eq!(plain::family_h(&instance, m), clauses.collect::<Vec<_>>());
        for rule in RULES {
            told.pruned(&instance, m, rule, &compare_pruned(&instance, m, rule));
        }
    }
    assert_eq!(told.missing(), [""; 0]);
}

/// One agent alone has the same formula under both rules.
#[test]
fn the_pair_pruned() {
    RULES.into_iter().for_each(pair_pruned);
}

fn pair_pruned(rule: u64) {
    let formula = [
        1, 0, 4, 0, 1, 2, 0, 3, 4, 0, -1, -2, 0, -3, -4, 0, -1, 3, 4, 0, -2, 4, 3, 0,
    ];
    let mut words = [7; 29];
    assert_eq!(pruned_size(&PAIR, 1, rule), counts(28, 10));
    assert_eq!(write_pruned(&PAIR, 1, rule, &mut words), WROTE);
    assert_eq!(words[..24], formula);
    assert_eq!(words[24..], [-2, 0, -3, 0, 7]);
    // Without family H it would fit.
    for length in [0, 24, 27] {
        let mut words = [7; 27];
        let refused = write_pruned(&PAIR, 1, rule, &mut words[..length]);
        assert_eq!(refused, says(12, 28));
        assert_eq!(words, [7; 27]);
    }
    assert_eq!(write_pruned(&PAIR, 33, rule, &mut words), says(10, 0));
    assert_eq!(pruned_size(&PAIR, 33, rule), uncounted(says(10, 0)));
    // At m 0 it should be at 0 and at 1: all is ruled out.
    let mut words = [7; 14];
    assert_eq!(pruned_size(&PAIR, 0, rule), counts(14, 6));
    assert_eq!(write_pruned(&PAIR, 0, rule, &mut words), WROTE);
    assert_eq!(words, [1, 0, 2, 0, 1, 2, 0, -1, -2, 0, -1, 0, -2, 0]);
}

/// How many clauses of family H there are, after seeing that all is as in the
/// plain table.
fn count_h(instance: &[u8], m: u64) -> usize {
    let words = compare_pruned(instance, m, 1);
    let formula = formula_size(instance, m, 1).second as usize;
    let added =
        |rule: u64| pruned_size(instance, m, rule).second - formula_size(instance, m, rule).second;
    assert_eq!(added(1), added(2));
    (words.len() - formula) / 2
}

/// Counts worked out by hand. One agent may be at a vertex that is x from its
/// start and y from its goal at m + 1 − x − y of the m + 1 times, or never.
#[test]
fn counts_of_family_h() {
    // On the way from 0 to 32, at m 32, each vertex can be passed at one time.
    assert_eq!(count_h(&path(64, &[0], &[32]), 32), 33 * 64 - 33);
    // From 0 to 31 each of those vertices at two times, and 32 at none: there and back are 33 steps.
    assert_eq!(count_h(&path(64, &[0], &[31]), 32), 33 * 64 - 2 * 32);
    // Beyond the horizon: nowhere at any time.
    assert_eq!(count_h(&path(64, &[0], &[33]), 32), 33 * 64);
    assert_eq!(count_h(&path(64, &[0], &[63]), 32), 33 * 64);
    assert_eq!(count_h(&path(64, &[63], &[0]), 0), 64);
    // From 10 and back at m 4: 1, 3, 5, 3 and 1 vertices.
    assert_eq!(count_h(&path(64, &[10], &[10]), 4), 5 * 64 - 13);
    // From corner to corner of the grid at m 14: d + 1 vertices at distance d up to 7, then fewer.
    let grid = instance_bytes(64, &grid_edges(8), &[0], &[63]);
    assert_eq!(count_h(&grid, 14), 15 * 64 - 64);
    assert_eq!(count_h(&grid, 13), 14 * 64);
    // All edges: at time 0 and at time m all vertices but one, for each of 16 agents.
    let largest = largest_instance();
    assert_eq!(count_h(&largest, 32), 2 * 16 * 63);
    assert_eq!(pruned_size(&largest, 32, 1).second, 7_629_328);
    assert_eq!(pruned_size(&largest, 32, 2).second, 83_569_168);
    assert_eq!(count_h(&largest, 0), 16 * 63);
    // No edges: all vertices but one at all times; with another goal all.
    assert_eq!(count_h(&instance_bytes(64, &[], &[5], &[5]), 32), 33 * 63);
    assert_eq!(count_h(&instance_bytes(64, &[], &[5], &[6]), 32), 33 * 64);
}

/// Size and writer of the pruned formula against the plain table; gives the
/// words.
fn compare_pruned(instance: &[u8], m: u64, rule: u64) -> Vec<i32> {
    let mut clauses = plain::clauses(instance, m, rule);
    clauses.extend(plain::family_h(instance, m));
    compare_words(instance, m, rule, true, &clauses)
}

/// The floor against both slower ways; gives the answer.
fn compare_floor(instance: &[u8]) -> Answer {
    let answer = floor(instance);
    let handed = Handed {
        instance,
        ..Handed::default()
    };
    match (plain::floor(instance), failing(30, &handed).first()) {
        (Some(least), None) => assert_eq!(answer, says(0, least as u64)),
        (None, Some(&place)) => assert_eq!(answer, says(30, place)),
        both => panic!("{instance:?}: {both:?}"),
    }
    answer
}

/// All maps of `n` vertices.
fn all_maps(n: usize) -> impl Iterator<Item = Vec<(u8, u8)>> {
    let possible = all_edges(n);
    (0..1 << possible.len()).map(move |graph| {
        let chosen = (0..possible.len()).filter(|j| graph >> j & 1 == 1);
        chosen.map(|j| possible[j]).collect()
    })
}

#[test]
fn all_small_floors() {
    let mut floors = BTreeSet::new();
    for n in 1..=5u8 {
        for edges in all_maps(n.into()) {
            for start in 0..n {
                for goal in (0..n).chain([NO_GOAL]) {
                    let instance = instance_bytes(n.into(), &edges, &[start], &[goal]);
                    let answer = compare_floor(&instance);
                    floors.insert((answer.number, answer.second));
                    for m in [0, 1, 2, 3, 5] {
                        compare_pruned(&instance, m, 1 + m % 2);
                    }
                }
            }
        }
    }
    assert!((0..=4).all(|floor| floors.contains(&(0, floor))));
}

/// One agent alone can go as soon as the floor says, and no sooner; without a goal
/// it is there at once.
#[test]
fn one_agent_needs_the_floor() {
    for n in 1..=4u8 {
        for edges in all_maps(n.into()) {
            let goals = || (0..n).chain([NO_GOAL]);
            for (start, goal) in (0..n).flat_map(|start| goals().map(move |goal| (start, goal))) {
                let instance = instance_bytes(n.into(), &edges, &[start], &[goal]);
                let answer = floor(&instance);
                assert!(!is_free(goal) || answer == says(0, 0));
                for m in 0..=4u32 {
                    let count = u32::from(n).pow(m + 1);
                    let plan = |index: u32| {
                        let byte = |t: u32| (index / u32::from(n).pow(t) % u32::from(n)) as u8;
                        (0..=m).map(byte).collect::<Vec<u8>>()
                    };
                    let m = u64::from(m);
                    let mut plans = (0..count).map(plan);
                    let comes = plans.any(|plan| plain::passes(&instance, m, 1 + m % 2, &plan));
                    assert_eq!(comes, answer.number == 0 && answer.second <= m);
                }
            }
        }
    }
}

/// Family H rules out no valuation that satisfies the formula: every valuation of
/// every instance on up to 3 vertices with at most 12 variables, under either rule.
#[test]
fn family_h_changes_no_meaning() {
    RULES.into_iter().for_each(no_meaning_changed);
}

fn no_meaning_changed(rule: u64) {
    let mut satisfying = 0;
    for n in 1..=3u8 {
        for edges in all_maps(n.into()) {
            let bytes: Vec<u8> = (0..n).chain([NO_GOAL]).collect();
            let mut ends: Vec<Vec<u8>> = bytes.iter().map(|&v| vec![v]).collect();
            let pairs = bytes
                .iter()
                .flat_map(|&v| bytes.iter().map(move |&w| vec![v, w]));
            ends.extend(pairs.filter(|x| x[0] != x[1] || is_free(x[0])));
            for (starts, goals) in ends.iter().flat_map(|x| ends.iter().map(move |y| (x, y))) {
                if starts.len() != goals.len() || starts.contains(&NO_GOAL) {
                    continue;
                }
                let instance = instance_bytes(n.into(), &edges, starts, goals);
                for m in 0..=3u64 {
                    let count = usize::from(n) * starts.len() * (m as usize + 1);
                    if count > 12 {
                        continue;
                    }
                    let clauses = plain::clauses(&instance, m, rule);
                    let family_h = plain::family_h(&instance, m);
                    for bits in 0..1u32 << count {
                        let sign = |i: usize| 2 * (bits >> i & 1) as i32 - 1;
                        let entries: Vec<i32> =
                            (0..count).map(|i| sign(i) * (i as i32 + 1)).collect();
                        let literal = |x: i32| entries[x.unsigned_abs() as usize - 1] == x;
                        let holds = |clauses: &[Vec<i32>]| {
                            clauses
                                .iter()
                                .all(|clause| clause.iter().any(|&x| literal(x)))
                        };
                        if holds(&clauses) {
                            assert!(holds(&family_h), "{instance:?}, m {m}, {entries:?}");
                            let answer = floor(&instance);
                            assert!(answer.number == 0 && answer.second <= m);
                            satisfying += 1;
                        }
                    }
                }
            }
        }
    }
    assert!(satisfying > 100, "{satisfying}");
}

/// A plan that passes is as long as the floor at least, and its valuation
/// satisfies family H.
#[test]
fn random_walks_keep_to_floor_and_family_h() {
    let mut random = Generator::new(31);
    let mut at_floor = 0;
    for _ in 0..2000 {
        let n = 1 + random.below(24);
        let k = 1 + random.below(n.min(16));
        let m = random.below(12);
        let percent = random.below(40);
        let rule = random.rule();
        let (instance, plan) = random.walk(n, k, percent, m, rule);
        let answer = compare_floor(&instance);
        assert!(answer.number == 0 && answer.second <= m as u64);
        at_floor += usize::from(answer.second == m as u64);
        let entries = plain::valuation(n, k, &plan);
        let family_h = plain::family_h(&instance, m as u64);
        assert!(plain::satisfies(&family_h, &entries));
    }
    assert!(at_floor > 100, "{at_floor}");
}

/// Maps of all kinds up to 64 vertices.
#[test]
fn random_maps() {
    let mut random = Generator::new(37);
    let mut told = Told::default();
    let mut floors = BTreeSet::new();
    for i in 0..600 {
        let n = 1 + random.below(if i % 4 == 0 { 64 } else { 12 });
        let k = 1 + random.below(n.min(if i % 2 == 0 { 3 } else { 16 }));
        let instance = random.mapped(n, k);
        let rule = random.rule();
        assert_eq!(
            check_instance(&instance, 0, rule),
            says(0, 0),
            "{instance:?}"
        );
        let answer = compare_floor(&instance);
        told.floor(&instance, (answer.number, answer.second));
        if answer.number == 0 {
            floors.insert(answer.second);
        }
        let m = random.below(if n > 16 { 3 } else { 12 }) as u64;
        told.pruned(&instance, m, rule, &compare_pruned(&instance, m, rule));
    }
    // That one takes the path of 64 from end to end.
    let missing = told.missing();
    assert!(
        missing
            .iter()
            .all(|&form| form == "floor: 63 is unreachable"),
        "{missing:?}"
    );
    assert!(floors.len() > 20 && floors.last() > Some(&32), "{floors:?}");
}

/// A path of every length, from end to end, at the horizons around it.
#[test]
fn paths() {
    for n in 1..=64u8 {
        let length = u64::from(n) - 1;
        for (start, goal) in [(0, n - 1), (n - 1, 0)] {
            let instance = path(n, &[start], &[goal]);
            assert_eq!(compare_floor(&instance), says(0, length));
            for m in [length.saturating_sub(1), length, length + 1] {
                if m <= 32 {
                    let times = m as usize + 1;
                    let open = times.saturating_sub(length as usize);
                    assert_eq!(count_h(&instance, m), (times - open) * usize::from(n));
                }
            }
        }
    }
}
