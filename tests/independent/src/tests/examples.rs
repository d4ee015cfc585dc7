//! The examples of the document, with the values it gives.

use super::{counts, says, WROTE};
use crate::sample::instance_bytes;
use crate::*;

const PAIR: [u8; 8] = [2, 1, 1, 0, 0, 1, 0, 1];

const PAIR_CLAUSES: [&[i32]; 8] = [
    &[1, 0],
    &[4, 0],
    &[1, 2, 0],
    &[3, 4, 0],
    &[-1, -2, 0],
    &[-3, -4, 0],
    &[-1, 3, 4, 0],
    &[-2, 4, 3, 0],
];

const PAIR_TEXT: &str = "p cnf 4 8
1 0
4 0
1 2 0
3 4 0
-1 -2 0
-3 -4 0
-1 3 4 0
-2 4 3 0
";

fn path(starts: &[u8], goals: &[u8]) -> Vec<u8> {
    instance_bytes(3, &[(0, 1), (1, 2)], starts, goals)
}

fn text(input: &[u8]) -> String {
    let mut out = Vec::new();
    text::print_formula(input, &mut out).unwrap();
    String::from_utf8(out).unwrap()
}

#[test]
fn pair_bytes() {
    assert_eq!(instance_bytes(2, &[(0, 1)], &[0], &[1]), PAIR);
}

#[test]
fn pair_formula() {
    assert_eq!(formula_size(&PAIR, 1, 1), counts(24, 8));
    let mut words = [7; 24];
    assert_eq!(write_formula(&PAIR, 1, 1, &mut words), WROTE);
    assert_eq!(words.to_vec(), PAIR_CLAUSES.concat());
    let mut words = [7; 23];
    assert_eq!(write_formula(&PAIR, 1, 1, &mut words), says(12, 24));
    assert_eq!(words, [7; 23]);
}

#[test]
fn pair_clause_by_number() {
    for (number, expected) in PAIR_CLAUSES.iter().enumerate() {
        let mut words = [7; 66];
        let length = expected.len();
        assert_eq!(
            clause(&PAIR, 1, 1, number as u64, &mut words),
            says(0, length as u64)
        );
        assert_eq!(&words[..length], *expected);
        assert!(words[length..].iter().all(|&word| word == 7));
    }
}

#[test]
fn pair_decoded() {
    let mut plan = [7; 3];
    assert_eq!(decode(&PAIR, 1, 1, &[1, -2, -3, 4], &mut plan), says(0, 2));
    assert_eq!(plan, [0, 1, 7]);
}

#[test]
fn pair_not_decoded() {
    let mut plan = [7; 2];
    assert_eq!(decode(&PAIR, 1, 1, &[1, -2, 3, 4], &mut plan), says(24, 5));
    assert_eq!(
        decode(&PAIR, 1, 1, &[-1, -2, -3, -4], &mut plan),
        says(24, 0)
    );
    assert_eq!(decode(&PAIR, 1, 1, &[1, -2, -4, 3], &mut plan), says(23, 2));
    for i in 0..4 {
        let mut entries = [1, -2, -3, 4];
        entries[i] = i32::MIN;
        assert_eq!(decode(&PAIR, 1, 1, &entries, &mut plan), says(23, i as u64));
    }
    assert_eq!(plan, [7; 2]);
}

#[test]
fn swap() {
    let instance = instance_bytes(2, &[(0, 1)], &[0, 1], &[1, 0]);
    assert_eq!(check_plan(&instance, 1, 1, &[0, 1, 1, 0]), says(25, 2));
    assert_eq!(
        encode(&instance, 1, 1, &[0, 1, 1, 0], &mut [7; 8]),
        says(25, 2)
    );
    assert_eq!(formula_size(&instance, 1, 1), counts(72, 24));
}

#[test]
fn following() {
    let instance = path(&[0, 1], &[1, 2]);
    assert_eq!(check_plan(&instance, 1, 1, &[0, 1, 1, 2]), says(26, 2));
    assert_eq!(
        encode(&instance, 1, 1, &[0, 1, 1, 2], &mut [7; 12]),
        says(26, 2)
    );
    assert_eq!(check_plan(&instance, 2, 1, &[0, 1, 0, 2, 1, 2]), says(0, 3));
}

#[test]
fn time_until_rest() {
    let cost = |m: u64, plan: &[u8]| check_plan(&PAIR, m, 1, plan);
    assert_eq!(cost(1, &[0, 1]), says(0, 1));
    // Two waits and then the move; the move and then two waits.
    assert_eq!(cost(3, &[0, 0, 0, 1]), says(0, 3));
    assert_eq!(cost(3, &[0, 1, 1, 1]), says(0, 1));
    // It leaves its goal and comes back.
    assert_eq!(cost(3, &[0, 1, 0, 1]), says(0, 3));
    // It leaves its start and comes back.
    let home = instance_bytes(2, &[(0, 1)], &[0], &[0]);
    assert_eq!(check_plan(&home, 2, 1, &[0, 1, 0]), says(0, 2));
    assert_eq!(check_plan(&home, 3, 1, &[0, 1, 0, 0]), says(0, 2));
    assert_eq!(check_plan(&home, 3, 1, &[0, 1, 1, 0]), says(0, 3));
    assert_eq!(check_plan(&home, 3, 1, &[0; 4]), says(0, 0));
}

#[test]
fn worked_costs() {
    for (instance, m, plan, cost) in costs::worked() {
        assert_eq!(
            check_plan(&instance, m, 1, &plan),
            says(0, cost),
            "{plan:?}"
        );
        assert_eq!(plain::cost(&instance, m, &plan) as u64, cost, "{plan:?}");
    }
}

/// The worked plans alone tell every wrong count from the cost.
#[test]
fn wrong_costs() {
    let mut told = costs::Told::default();
    for (instance, _, plan, cost) in costs::worked() {
        told.add(instance[1].into(), &plan, cost);
    }
    assert_eq!(told.missing(), [""; 0]);
}

#[test]
fn standing() {
    let instance = path(&[0, 1], &[1, 2]);
    assert_eq!(check_plan(&instance, 1, 1, &[0, 1, 1, 1]), says(20, 2));
    assert_eq!(
        encode(&instance, 1, 1, &[0, 1, 1, 1], &mut [7; 12]),
        says(20, 2)
    );
}

#[test]
fn meeting() {
    let instance = path(&[0, 2], &[1, 2]);
    assert_eq!(check_plan(&instance, 1, 1, &[0, 2, 1, 1]), says(21, 3));
}

#[test]
fn jumping() {
    assert_eq!(check_plan(&path(&[0], &[2]), 1, 1, &[0, 2]), says(19, 1));
}

#[test]
fn no_step() {
    assert_eq!(check_plan(&PAIR, 0, 1, &[0]), says(22, 0));
    let instance = instance_bytes(2, &[(0, 1)], &[0], &[0]);
    assert_eq!(check_plan(&instance, 0, 1, &[0]), says(0, 0));
}

#[test]
fn limits() {
    assert_eq!(check_instance(&PAIR, 32, 1), says(0, 0));
    assert_eq!(check_instance(&PAIR, 33, 1), says(10, 0));
    let vertices = |n| instance_bytes(n, &[(0, 1)], &[0], &[1]);
    assert_eq!(check_instance(&vertices(64), 1, 1), says(0, 0));
    assert_eq!(check_instance(&vertices(0), 1, 1), says(2, 0));
    assert_eq!(check_instance(&vertices(65), 1, 1), says(2, 0));
    let loop_edge = instance_bytes(2, &[(0, 0)], &[0], &[1]);
    assert_eq!(check_instance(&loop_edge, 1, 1), says(6, 4));
    let twice = instance_bytes(3, &[(0, 1), (0, 1)], &[0], &[1]);
    assert_eq!(check_instance(&twice, 1, 1), says(7, 5));
}

#[test]
fn program_text() {
    let input = [1, 2, 1, 1, 0, 0, 1, 0, 1];
    assert_eq!(text(&input), PAIR_TEXT);
    assert_eq!(text(&[]), "c refused 1 0\n");
    assert_eq!(text(&[0]), "c refused 1 0\n");
    assert_eq!(text(&[1, 2, 1]), "c refused 1 2\n");
    assert_eq!(text(&[33, 2, 1, 1, 0, 0, 1, 0, 1]), "c refused 10 0\n");
    assert_eq!(text(&[1, 2, 1, 1, 0, 0, 0, 0, 1]), "c refused 6 4\n");
}
