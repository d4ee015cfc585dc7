//! The stored set.

use crate::case::{asked, call, Cases, FLOOR, TALLY};
use crate::small::{instances, small_instances};
use independent::questions::{asked_under, question, ASKED};
use independent::{free, wrong_ceiling, wrong_rules};
use std::process;

/// The stored set: all of the above, thinned so that it stays small.
pub fn gate(cases: &mut Cases) {
    for (index, given) in small_instances().iter().enumerate() {
        // The first 4,572 have up to 3 vertices. The steps share no divisor with the numbers of goals, starts and rules.
        let (step, pruned_step) = if index < 4572 { (7, 17) } else { (101, 211) };
        if index % step == 0 {
            cases.small(given);
        }
        if index % pruned_step == 1 {
            cases.small_pruned(given);
        }
    }
    for given in small_instances().iter().step_by(8009) {
        cases.all_clauses(given);
    }
    for _ in 0..6 {
        cases.malformed();
    }
    for (n, k, m, step) in [
        (1, 1, 2, 1),
        (2, 1, 1, 1),
        (2, 2, 1, 5),
        (3, 1, 1, 17),
        (3, 2, 1, 199),
    ] {
        for given in instances(n, k, m).iter().step_by(step) {
            cases.all_plans(given);
        }
    }
    for (n, k, m, step) in [
        (1, 1, 2, 1),
        (2, 1, 1, 1),
        (2, 2, 0, 3),
        (2, 2, 1, 13),
        (3, 1, 1, 23),
    ] {
        for given in instances(n, k, m).iter().step_by(step) {
            cases.all_valuations(given);
        }
    }
    for _ in 0..60 {
        cases.larger(5);
    }
    for _ in 0..12 {
        cases.larger(10);
    }
    for _ in 0..60 {
        cases.formulas();
    }
    cases.largest(true);
    cases.largest_turning(true);
    cases.worked_rules();
    cases.all_steps(7);
    cases.two_at_once();
    for k in 2..=16 {
        cases.crowded(k);
    }
    cases.worked();
    for _ in 0..80 {
        cases.texts(4);
    }
    for _ in 0..30 {
        cases.texts(8);
    }
    cases.numbers();
    cases.all_texts(101);
    cases.costs();
    for _ in 0..30 {
        cases.waiting(9);
    }
    cases.worked_floors();
    for _ in 0..60 {
        cases.maps(6);
    }
    for _ in 0..20 {
        cases.maps(16);
    }
    for _ in 0..10 {
        cases.maps(64);
    }
    for (n, m) in [(34, 32), (64, 9)] {
        cases.path(n, m);
    }
    cases.worked_sizes();
    for _ in 0..60 {
        cases.any_size();
    }
    cases.worked_free();
    cases.worked_reversing();
    for _ in 0..14 {
        cases.turned(5);
    }
    for _ in 0..4 {
        cases.turned(16);
    }
    cases.ceilings_twice();
    cases.worked_ceilings();
    cases.ceiling_edges();
    for _ in 0..7 {
        cases.ceiled(5);
    }
    cases.tallies_twice();
    cases.worked_tallies();
    for room in [65_535, 6, 65_535] {
        cases.tally_history(11, room);
    }
}

/// Fails where a kind never gives an answer that it can give under a rule, where the
/// items of two numbers of neighbouring questions or of one question never fail at
/// once, where no accepted plan tells a wrong count from the cost, or no answer a
/// wrong floor, family H, size or writer from the right one, or no answer of a call
/// one that is wrong about free agents, about the rule, about the ceiling or about the
/// tally, or no plan a program that holds, reverses or exchanges wrongly.
pub fn require_all(cases: &Cases) {
    let mut missing = Vec::new();
    for kind in 1..=ASKED.len() as u8 {
        for (rule, times) in cases.times.iter().enumerate() {
            if kind == FLOOR && rule != 1 {
                continue;
            }
            let numbers = asked_under(call(kind), rule as u64);
            let accepted = (rule > 0).then_some(0);
            for number in numbers.iter().copied().chain(accepted) {
                if times[usize::from(kind)][number as usize] == 0 {
                    missing.push(format!("kind {kind}, rule {rule}, never gives {number}"));
                }
            }
            let pairs = match rule {
                // 31 comes between 10 and the questions after it.
                0 => neighbours(asked(kind))
                    .into_iter()
                    .filter(around_31)
                    .collect(),
                _ => neighbours(&numbers),
            };
            // 34 comes before all, and so is asked beside each.
            let later = numbers.iter().filter(|&&number| number != 34);
            let beside_34 = later.map(|&number| (34, number));
            let beside_34 = beside_34.filter(|_| kind == TALLY);
            for (first, second) in pairs.into_iter().chain(beside_34) {
                if !cases.twice.contains(&(kind, rule, first, second)) {
                    missing.push(format!(
                        "kind {kind}, rule {rule}: {first} and {second} never fail at once, \
                         {first} the answer"
                    ));
                }
            }
        }
    }
    for name in cases.told.missing() {
        missing.push(format!("no accepted plan tells from the cost: {name}"));
    }
    let floors = cases.told_floors.missing();
    let names = floors.into_iter().map(String::from);
    let names = names.chain(cases.told_sizes.missing());
    let free = cases.told_free.iter().flat_map(free::Told::missing);
    let rules = cases.told_rules.iter().flat_map(wrong_rules::Told::missing);
    let reversing = cases.told_reversing.missing();
    let reversing = reversing.into_iter().map(String::from);
    let ceiling = cases.told_ceiling.iter();
    let ceiling = ceiling.flat_map(wrong_ceiling::Told::missing);
    let tally = cases.told_tally.missing();
    for name in names
        .chain(free)
        .chain(rules)
        .chain(reversing)
        .chain(ceiling)
        .chain(tally)
    {
        missing.push(format!("no answer tells from the right one: {name}"));
    }
    if !missing.is_empty() {
        eprintln!("{}", missing.join("\n"));
        process::exit(1);
    }
}

fn around_31(&(first, second): &(u32, u32)) -> bool {
    first == 31 || second == 31
}

/// Two numbers of one question, in both orders, or of a question and the next.
fn neighbours(numbers: &[u32]) -> Vec<(u32, u32)> {
    let mut pairs = Vec::new();
    for (at, &first) in numbers.iter().enumerate() {
        let mut later = numbers[at..].iter().map(|&x| question(x));
        let next = later.find(|&x| x != question(first));
        pairs.extend(numbers.iter().filter_map(|&second| {
            let near = question(second) == question(first) || Some(question(second)) == next;
            (near && first != second).then_some((first, second))
        }));
    }
    pairs
}
