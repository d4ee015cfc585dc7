//! The tally, from request S-13: plans and records by hand, question 34, histories.

use super::says;
use crate::histories::{some_submitted, stated, Submitted};
use crate::questions::{Item, ASKED, NUMBERS, TALLY};
use crate::records::{full, open, record, some_record};
use crate::sample::Generator;
use crate::tally::FULL;
use crate::worked_tally::{closes_up, counted, dearest, misses, moves, plans, stays, waits};
use crate::*;

const REFUSED: Item = (34, FULL);

#[test]
fn answers_by_hand() {
    for (plan, (number, second)) in plans() {
        let Submitted {
            instance, m, rule, ..
        } = &plan;
        let checked = check_plan(instance, *m, *rule, &plan.plan);
        assert_eq!(checked, says(number, second), "{plan:?}");
        let mut tally = Tally::default();
        assert_eq!(plan.count(&mut tally), (number, second));
        let right = match number {
            0 => record(1, &[], [second; 3]),
            _ => record(0, &[(number as usize, 1)], [0; 3]),
        };
        assert_eq!(tally, right);
    }
    // Every number of the call but 34, and accepted.
    let given = |number: u32| plans().iter().any(|plan| plan.1 .0 == number);
    let numbers = ASKED[TALLY].iter().filter(|&&number| number != 34);
    assert!(given(0) && { numbers }.all(|&number| given(number)));
}

#[test]
fn records_by_hand() {
    for (plan, before, after) in counted() {
        let mut tally = before;
        let answer = plan.count(&mut tally);
        assert_ne!(answer.0, 34, "{before:?}");
        assert_eq!(tally, after, "{answer:?}");
    }
}

/// No plan, right or wrong, is counted in a full record, and all are in an open one.
#[test]
fn question_34() {
    for (plan, answer) in plans() {
        for before in full() {
            let mut tally = before;
            assert_eq!(plan.count(&mut tally), REFUSED, "{before:?}");
            assert_eq!(tally, before);
        }
        for before in open() {
            let mut tally = before;
            assert_eq!(plan.count(&mut tally), answer, "{before:?}");
            let mut right = before;
            match answer {
                (0, cost) => {
                    let others = before.passed > 0;
                    let costs = |old: u64| [cost].into_iter().chain(others.then_some(old));
                    right.passed += 1;
                    right.sum += cost;
                    right.least = costs(before.least).min().unwrap();
                    right.greatest = costs(before.greatest).max().unwrap();
                }
                (number, _) => right.refused[number as usize] += 1,
            }
            assert_eq!(tally, right, "{before:?}");
        }
    }
}

/// Where 34 begins: by passed, by each counter, by passed and a counter, by the sum.
#[test]
fn borders() {
    let given = |tally: Tally| {
        let mut after = tally;
        let answer = moves().count(&mut after);
        assert_eq!(answer == REFUSED, after == tally);
        answer == REFUSED
    };
    for times in 65_530..65_540 {
        let filled = times >= 65_535;
        assert_eq!(given(record(times, &[], [0; 3])), filled);
        for number in 0..36 {
            assert_eq!(given(record(0, &[(number, times)], [0; 3])), filled);
            let both = record(9, &[(number, times - 9)], [0; 3]);
            assert_eq!(given(both), filled);
            let other = (number + 7) % 36;
            let both = record(0, &[(number, times - 30), (other, 30)], [0; 3]);
            assert_eq!(given(both), filled);
        }
    }
    for passed in [0, 1, 2, 127, 128, 129, 8_191, 65_533, 65_534] {
        let most = 512 * passed;
        for (sum, dear) in [
            (0, false),
            (most, false),
            (most + 1, true),
            (most + 512, true),
            (u64::MAX, true),
        ] {
            assert_eq!(given(record(passed, &[], [sum, 0, 0])), dear);
        }
    }
    // What is between the powers of two that wrap.
    for shift in 16..64 {
        assert!(given(record(1 << shift, &[], [0; 3])));
        assert!(given(record(0, &[(35, 1 << shift)], [0; 3])));
        let half = 1 << shift;
        let rest = 0u64.wrapping_sub(half);
        assert!(given(record(half, &[(0, rest)], [0; 3])));
    }
}

/// Every list of up to five of some plans, call by call.
#[test]
fn short_histories() {
    let all = [stays(), moves(), waits(), misses(), closes_up()];
    let bad = Submitted {
        rule: 0,
        ..dearest()
    };
    let all: Vec<Submitted> = all.into_iter().chain([bad]).collect();
    let mut lists: Vec<(Vec<Item>, Tally)> = vec![(vec![], Tally::default())];
    for _ in 0..5 {
        let mut longer = Vec::new();
        for (answers, before) in &lists {
            assert_eq!(stated(answers), *before);
            for plan in &all {
                let mut after = *before;
                let answer = plan.count(&mut after);
                longer.push(([&answers[..], &[answer]].concat(), after));
            }
        }
        lists = longer;
    }
    assert_eq!(lists.len(), 7_776);
    for (answers, tally) in lists {
        assert_eq!(stated(&answers), tally);
        assert!(tally.sum <= 512 * tally.passed);
    }
}

/// Drawn lists; at each call the record states the answers so far.
#[test]
fn drawn_histories() {
    let mut random = Generator::new(1301);
    let mut seen = [false; NUMBERS];
    for _ in 0..300 {
        let mut tally = Tally::default();
        let mut answers = Vec::new();
        for _ in 0..random.below(60) {
            let plan = some_submitted(&mut random);
            let checked = check_plan(&plan.instance, plan.m, plan.rule, &plan.plan);
            let answer = plan.count(&mut tally);
            assert_eq!(answer, (checked.number, checked.second));
            answers.push(answer);
            seen[answer.0 as usize] = true;
            assert_eq!(tally, stated(&answers));
        }
    }
    let mut numbers = ASKED[TALLY].iter().filter(|&&number| number != 34);
    assert!(seen[0] && numbers.all(|&number| seen[number as usize]));
}

/// A history that fills the record; then nothing is counted any more.
fn filled(mut next: impl FnMut() -> Submitted) -> Tally {
    let mut tally = Tally::default();
    let mut answers = Vec::new();
    for call in 0..65_560 {
        let before = tally;
        let answer = next().count(&mut tally);
        assert_eq!(answer == REFUSED, call >= 65_535, "call {call}");
        assert!(tally.sum <= 512 * tally.passed);
        assert!(answer != REFUSED || tally == before);
        answers.push(answer);
    }
    assert_eq!(tally, stated(&answers));
    tally
}

#[test]
fn full_histories() {
    let known: Vec<Submitted> = plans().into_iter().map(|plan| plan.0).collect();
    let mut turn = known.iter().cycle();
    filled(|| turn.next().unwrap().clone());
    let mut random = Generator::new(1302);
    filled(|| some_submitted(&mut random));
    // The sum is as great as it can be, at every call.
    let tally = filled(dearest);
    assert_eq!(tally, record(65_535, &[], [33_553_920, 512, 512]));
    let tally = filled(misses);
    assert_eq!(tally, record(0, &[(22, 65_535)], [0; 3]));
}

/// Any record: a second call finds what the first one left.
#[test]
fn drawn_records() {
    let mut random = Generator::new(1303);
    let mut times = [0; 2];
    for _ in 0..20_000 {
        let before = some_record(&mut random);
        let plan = some_submitted(&mut random);
        let mut tally = before;
        let answer = plan.count(&mut tally);
        times[usize::from(answer == REFUSED)] += 1;
        assert_eq!(answer == REFUSED, tally == before);
        let refused = (0..36).map(|number| tally.refused[number] ^ before.refused[number]);
        let moved = refused.filter(|&change| change != 0).count();
        assert_eq!(moved, usize::from(!matches!(answer.0, 0 | 34)));
        if answer.0 != 0 {
            let costs = |tally: &Tally| (tally.passed, tally.sum, tally.least, tally.greatest);
            assert_eq!(costs(&tally), costs(&before));
        }
    }
    assert!(times.iter().all(|&times| times > 1_000), "{times:?}");
}

#[test]
fn stored_bytes() {
    let mut random = Generator::new(1304);
    for _ in 0..200 {
        let tally = some_record(&mut random);
        let bytes = tally.bytes();
        assert_eq!(bytes.len(), 320);
        assert_eq!(Tally::of(&bytes), Some(tally));
        assert_eq!(Tally::of(&bytes[1..]), None);
        assert_eq!(Tally::of(&bytes[..312]), None);
    }
    let tally = record(0x0102, &[(0, 3), (35, 4)], [5, 6, 7]);
    let bytes = tally.bytes();
    let at = |number: usize| u64::from_le_bytes(bytes[8 * number..][..8].try_into().unwrap());
    assert_eq!(bytes[..3], [2, 1, 0]);
    let numbers = [0, 1, 2, 35, 36, 37, 38, 39].map(at);
    assert_eq!(numbers, [0x0102, 3, 0, 0, 4, 5, 6, 7]);
}
