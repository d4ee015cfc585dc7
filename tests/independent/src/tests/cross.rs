//! The calls against the plain clause table.

use super::{compare_words, says, RULES};
use crate::parts::Parts;
use crate::sample::{all_edges, instance_bytes, largest_instance, Generator};
use crate::*;

/// Size, writers and clause by number against the table.
pub(super) fn compare_formula(instance: &[u8], m: u64, rule: u64, clauses: &[Vec<i32>]) {
    compare_words(instance, m, rule, false, clauses);
    for (number, literals) in clauses.iter().enumerate() {
        let mut words = [7; 67];
        let length = literals.len() + 1;
        let answer = clause(instance, m, rule, number as u64, &mut words);
        assert_eq!(answer, says(0, length as u64));
        assert_eq!(words[..length - 1], literals[..]);
        assert_eq!(words[length - 1], 0);
        assert!(words[length..].iter().all(|&word| word == 7));
    }
    let count = clauses.len() as u64;
    assert_eq!(
        clause(instance, m, rule, count, &mut [7; 66]),
        says(11, count)
    );
}

/// The decoder on a valuation against the table; tells whether it accepted.
pub(super) fn compare_decoder(
    instance: &[u8],
    m: u64,
    rule: u64,
    clauses: &[Vec<i32>],
    entries: &[i32],
) -> bool {
    let [n, k] = [0, 1].map(|size| usize::from(instance[size]));
    let length = entries.len() / n;
    let mut buffer = [7; 16 * 33 + 1];
    let plan = &mut buffer[..length + 1];
    let answer = decode(instance, m, rule, entries, plan);
    match plain::first_unsatisfied(clauses, entries) {
        Some(number) => {
            assert_eq!(answer, says(24, number as u64));
            assert!(plan.iter().all(|&byte| byte == 7));
            false
        }
        None => {
            assert_eq!(answer, says(0, length as u64));
            assert_eq!(plan[length], 7);
            assert_eq!(plain::valuation(n, k, &plan[..length]), entries);
            assert!(plain::passes(instance, m, rule, &plan[..length]));
            true
        }
    }
}

/// Plan check and encoder against the plain meaning; tells whether they accepted.
pub(super) fn compare_plan(instance: &[u8], m: u64, rule: u64, plan: &[u8]) -> bool {
    let [n, k] = [0, 1].map(|size| usize::from(instance[size]));
    let count = n * plan.len();
    let mut entries = vec![7; count + 1];
    let answer = check_plan(instance, m, rule, plan);
    let encoded = encode(instance, m, rule, plan, &mut entries);
    let passes = plain::passes(instance, m, rule, plan);
    if passes {
        let cost = plain::cost(instance, m, plan) as u64;
        assert_eq!(answer, says(0, cost), "{plan:?}");
        assert!(cost <= m * k as u64);
        assert_eq!(encoded, says(0, count as u64));
        assert_eq!(entries[..count], plain::valuation(n, k, plan));
        assert_eq!(entries[count], 7);
    } else {
        assert!(matches!(answer.number, 17..=22 | 25 | 26));
        assert!(rule == 1 || ![20, 26].contains(&answer.number));
        assert_eq!(encoded, answer);
        assert!(entries.iter().all(|&entry| entry == 7));
    }
    passes
}

/// All instances with n vertices and k agents.
fn all_instances(n: usize, k: usize) -> Vec<Vec<u8>> {
    let possible = all_edges(n);
    let (all_starts, all_goals) = (all_places(n, k), all_goals(n, k));
    let mut instances = Vec::new();
    for graph in 0..1 << possible.len() {
        let chosen = (0..possible.len()).filter(|j| graph >> j & 1 == 1);
        let edges: Vec<(u8, u8)> = chosen.map(|j| possible[j]).collect();
        for starts in &all_starts {
            for goals in &all_goals {
                instances.push(instance_bytes(n, &edges, starts, goals));
            }
        }
    }
    instances
}

/// All ways to place k agents, 1 or 2, on different vertices.
fn all_places(n: usize, k: usize) -> Vec<Vec<u8>> {
    let mut places = all_plans(n, k);
    places.retain(|row| k == 1 || row[0] != row[1]);
    places
}

/// All goals of k agents, 1 or 2, each of which may be free.
fn all_goals(n: usize, k: usize) -> Vec<Vec<u8>> {
    // n stands for no goal here.
    let mut goals = all_plans(n + 1, k);
    for goal in goals.iter_mut().flatten() {
        if usize::from(*goal) == n {
            *goal = NO_GOAL;
        }
    }
    goals.retain(|goals| k == 1 || goals[0] != goals[1] || is_free(goals[0]));
    goals
}

/// All lists of `length` vertices.
pub(super) fn all_plans(n: usize, length: usize) -> Vec<Vec<u8>> {
    let mut plans = vec![vec![]];
    for _ in 0..length {
        let longer = |plan: &Vec<u8>| {
            let plan = plan.clone();
            (0..n as u8).map(move |v| [&plan[..], &[v]].concat())
        };
        plans = plans.iter().flat_map(longer).collect();
    }
    plans
}

/// The sizes n, k up to 4 vertices and 2 agents.
fn small_sizes() -> impl Iterator<Item = (usize, usize)> {
    (1..=4).flat_map(|n| (1..=n.min(2)).map(move |k| (n, k)))
}

#[test]
fn all_small_formulas() {
    for (n, k) in small_sizes() {
        for instance in all_instances(n, k) {
            for (m, rule) in (0..=2).flat_map(|m| RULES.map(|rule| (m, rule))) {
                compare_formula(&instance, m, rule, &plain::clauses(&instance, m, rule));
            }
        }
    }
}

/// Every plan as a valuation, for every small instance. At m 2 row 0 is the starts.
#[test]
fn all_small_plans() {
    // What passes under rule 1 passes under rule 2, and more does.
    let [first, second] = RULES.map(small_plans);
    assert!(0 < first && first < second);
}

fn small_plans(rule: u64) -> usize {
    let mut passing = 0;
    for (n, k) in small_sizes() {
        for m in 0..=2 {
            let given = if m == 2 { k } else { 0 };
            let ends = all_plans(n, (m + 1) * k - given);
            for instance in all_instances(n, k) {
                let starts = &instance[instance.len() - 2 * k..instance.len() - k];
                let clauses = plain::clauses(&instance, m as u64, rule);
                for end in &ends {
                    let plan = [&starts[..given], end].concat();
                    let passes = compare_plan(&instance, m as u64, rule, &plan);
                    let entries = plain::valuation(n, k, &plan);
                    let decoded = compare_decoder(&instance, m as u64, rule, &clauses, &entries);
                    assert_eq!(passes, decoded);
                    passing += usize::from(passes);
                    assert!(rule == 1 || passes || !plain::passes(&instance, m as u64, 1, &plan));
                }
            }
        }
    }
    passing
}

/// Every valuation of every small instance with at most 12 variables; with
/// more, random valuations that make A and B true.
#[test]
fn all_small_valuations() {
    RULES.into_iter().for_each(small_valuations);
}

fn small_valuations(rule: u64) {
    let mut random = Generator::new(11);
    let mut accepted = 0;
    for (n, k) in small_sizes() {
        for m in 0..=2 {
            let count = n * k * (m + 1);
            for instance in all_instances(n, k) {
                let clauses = plain::clauses(&instance, m as u64, rule);
                let [starts, goals, ..] = Parts::of(&instance).clause_counts(m, rule);
                let ends = (starts + goals) as usize;
                let mut compare = |entries: &[i32]| {
                    let decoded = compare_decoder(&instance, m as u64, rule, &clauses, entries);
                    accepted += usize::from(decoded);
                };
                if count <= 12 {
                    for bits in 0..1 << count {
                        compare(&signed(count, bits));
                    }
                } else {
                    for _ in 0..40 {
                        // A few true entries more than the ends.
                        let bits = random.draw() & random.draw();
                        let mut entries = signed(count, bits);
                        for literals in &clauses[..ends] {
                            entries[literals[0] as usize - 1] = literals[0];
                        }
                        compare(&entries);
                    }
                }
            }
        }
    }
    assert!(accepted > 0);
}

/// The valuation whose entry i is positive when bit i is 1.
fn signed(count: usize, bits: u64) -> Vec<i32> {
    (0..count)
        .map(|i| {
            if bits >> i & 1 == 1 {
                i as i32 + 1
            } else {
                -(i as i32 + 1)
            }
        })
        .collect()
}

#[test]
fn random_instances() {
    let mut random = Generator::new(3);
    for _ in 0..200 {
        let n = 1 + random.below(20);
        let k = 1 + random.below(n.min(16));
        let m = random.below(6);
        let percent = random.below(101);
        let instance = random.instance(n, k, percent);
        let rule = random.rule();
        compare_formula(
            &instance,
            m as u64,
            rule,
            &plain::clauses(&instance, m as u64, rule),
        );
    }
}

#[test]
fn random_walks() {
    let mut random = Generator::new(5);
    for _ in 0..300 {
        let n = 1 + random.below(24);
        let k = 1 + random.below(n.min(16));
        let m = random.below(9);
        let percent = random.below(101);
        let rule = random.rule();
        let (instance, plan) = random.walk(n, k, percent, m, rule);
        let m = m as u64;
        let clauses = plain::clauses(&instance, m, rule);
        assert!(compare_plan(&instance, m, rule, &plan));
        let entries = plain::valuation(n, k, &plan);
        assert!(compare_decoder(&instance, m, rule, &clauses, &entries));
        for _ in 0..20 {
            // A damaged plan, both as bytes and as a valuation.
            let mut damaged = plan.clone();
            let index = random.damage(&mut damaged).unwrap();
            let passes = compare_plan(&instance, m, rule, &damaged);
            let decoded = plain::valuation(n, k, &damaged);
            let decoded = compare_decoder(&instance, m, rule, &clauses, &decoded);
            // A byte that is no vertex becomes an agent nowhere.
            assert_eq!(passes, decoded);
            assert_ne!(damaged[index], plan[index]);
            // Some flipped entries.
            let mut flipped = entries.clone();
            for _ in 0..1 + random.below(3) {
                let i = random.below(flipped.len());
                flipped[i] = -flipped[i];
            }
            compare_decoder(&instance, m, rule, &clauses, &flipped);
        }
    }
}

#[test]
fn damaged_instances() {
    let mut random = Generator::new(9);
    for _ in 0..20_000 {
        let n = 1 + random.below(8);
        let k = 1 + random.below(n.min(3));
        let m = random.below(4) as u64;
        let percent = random.below(101);
        let mut instance = random.instance(n, k, percent);
        let rule = random.rule();
        assert_eq!(check_instance(&instance, m, rule), says(0, 0));
        let index = random.damage(&mut instance).unwrap();
        let answer = check_instance(&instance, m, rule);
        match answer.number {
            0 => assert!(index == 0 || index >= 4),
            2..=4 => assert_eq!(answer.second, u64::from(answer.number) - 2),
            5 => assert_eq!(answer.second, instance.len() as u64),
            _ => assert!((6..=9).contains(&answer.number)),
        }
    }
}

#[test]
fn largest_formula() {
    let rule = 1;
    let instance = largest_instance();
    let clauses = plain::clauses(&instance, 32, rule);
    assert_eq!(plain::words(&clauses).len(), 7_625_296);
    compare_formula(&instance, 32, rule, &clauses);
    // The same, with the first, the last and some other agents free: six fewer of two words.
    let mut parts = Parts::of(&instance);
    for a in [0, 3, 4, 9, 14, 15] {
        parts.goals[a] = NO_GOAL;
    }
    let clauses = plain::clauses(&parts.bytes(), 32, rule);
    assert_eq!(plain::words(&clauses).len(), 7_625_284);
    compare_formula(&parts.bytes(), 32, rule, &clauses);
}

#[test]
fn largest_valuations() {
    RULES.into_iter().for_each(large_valuations);
}

fn large_valuations(rule: u64) {
    let mut random = Generator::new(13);
    let (instance, plan) = random.walk(64, 16, 10, 32, rule);
    let clauses = plain::clauses(&instance, 32, rule);
    assert!(compare_plan(&instance, 32, rule, &plan));
    let entries = plain::valuation(64, 16, &plan);
    assert!(compare_decoder(&instance, 32, rule, &clauses, &entries));
    for _ in 0..10 {
        let mut flipped = entries.clone();
        let i = random.below(flipped.len());
        flipped[i] = -flipped[i];
        assert!(!compare_decoder(&instance, 32, rule, &clauses, &flipped));
        let mut damaged = plan.clone();
        let byte = random.below(damaged.len());
        damaged[byte] = (damaged[byte] + 1) % 64;
        let passes = compare_plan(&instance, 32, rule, &damaged);
        let decoded = plain::valuation(64, 16, &damaged);
        let decoded = compare_decoder(&instance, 32, rule, &clauses, &decoded);
        assert_eq!(passes, decoded);
    }
}

#[test]
fn the_text_is_the_formula() {
    let mut random = Generator::new(17);
    for _ in 0..50 {
        let n = 1 + random.below(12);
        let k = 1 + random.below(n.min(5));
        let m = random.below(5);
        let instance = random.instance(n, k, 40);
        let clauses = plain::clauses(&instance, m as u64, 1);
        let mut expected = format!("p cnf {} {}\n", n * k * (m + 1), clauses.len());
        for clause in &clauses {
            for literal in clause {
                expected += &format!("{literal} ");
            }
            expected += "0\n";
        }
        let mut out = Vec::new();
        text::print_formula(&[&[m as u8], &instance[..]].concat(), &mut out).unwrap();
        assert_eq!(String::from_utf8(out).unwrap(), expected);
    }
}
