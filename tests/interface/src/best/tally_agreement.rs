//! The tally against the independent program's, with records that a history brings and with others. A difference ends the
//! benchmark.

use super::agreement::{draw, same};
use independent::questions::{asked_under, NUMBERS, TALLY};
use independent::sample::Generator;
use independent::Tally;
use interface::input::some_plan;

/// What records and costs must have been, so that a wrong tally shows.
const SORTS: [&str; 8] = [
    "34 by the total alone",
    "34 by the sum alone",
    "34 where the total overflows",
    "one below 65,535",
    "the first pass, whatever least and greatest were",
    "a lower least",
    "a higher greatest",
    "neither lower nor higher",
];

/// Compares the call in so many random cases; gives the number of comparisons.
pub fn compare_tallies(cases: usize) -> usize {
    let mut g = Generator::new(65_535);
    // Under rule 1, under rule 2, and under any other.
    let mut all_hits = [[0; NUMBERS]; 3];
    let mut seen = [0; SORTS.len()];
    // One that goes on from case to case, from an empty one.
    let mut history = Tally::default();
    for _ in 0..cases {
        let case = draw(&mut g);
        let (instance, m, rule) = (&case.instance[..], case.horizon, case.rule);
        let plan = some_plan(&mut g, &case.parts, case.m, &case.plan);
        let hits = &mut all_hits[(rule.wrapping_sub(1) as usize).min(2)];
        for lent in [history, some_record(&mut g)] {
            let answer = same(
                &[lent],
                |tally| super::tally_plan(instance, m, rule, &plan, &mut tally[0]),
                |tally| independent::tally_plan(instance, m, rule, &plan, &mut tally[0]),
            );
            hits[answer.number as usize] += 1;
            let sorts = sorts(&lent, answer.number, answer.second);
            for (seen, is) in seen.iter_mut().zip(sorts) {
                *seen += usize::from(is);
            }
        }
        super::tally_plan(instance, m, rule, &plan, &mut history);
    }
    for (hits, rule) in all_hits.iter().zip([1, 2, 3]) {
        let accepted = Some(0).filter(|_| rule < 3);
        for number in accepted.into_iter().chain(asked_under(TALLY, rule)) {
            // A wrong rule comes with one fault alone.
            if rule < 3 || number > 30 {
                let hits = hits[number as usize];
                assert!(hits > 0, "tally, rule {rule}: {number} was never answered");
            }
        }
    }
    for (sort, seen) in SORTS.iter().zip(seen) {
        assert!(seen > 0, "no record was of this sort: {sort}");
    }
    all_hits.as_flattened().iter().sum()
}

/// Which of the sorts a record and an answer are.
fn sorts(tally: &Tally, number: u32, cost: u64) -> [bool; SORTS.len()] {
    let counters = || tally.refused.iter().chain([&tally.passed]);
    let total: u128 = counters().map(|&count| u128::from(count)).sum();
    let wrapped = counters().fold(0u64, |total, count| total.wrapping_add(*count));
    let by_total = total >= 65_535;
    let by_sum = u128::from(tally.sum) > 512 * u128::from(tally.passed);
    let (passes, first) = (number == 0, tally.passed == 0);
    let (lower, higher) = (cost < tally.least, cost > tally.greatest);
    [
        by_total && !by_sum,
        by_sum && !by_total,
        by_total && !by_sum && wrapped < 65_535,
        total == 65_534 && !by_sum,
        passes && first && (tally.least, tally.greatest) != (0, 0),
        passes && !first && lower && !higher,
        passes && !first && higher && !lower,
        passes && !first && !lower && !higher,
    ]
}

fn some_record(g: &mut Generator) -> Tally {
    let mut tally = Tally {
        passed: g.below(1000) as u64,
        ..Tally::default()
    };
    for _ in 0..g.below(4) {
        tally.refused[g.below(36)] = g.below(1000) as u64;
    }
    (tally.least, tally.greatest) = (g.below(40) as u64, g.below(513) as u64);
    tally.sum = match g.below(8) {
        0 => 512 * tally.passed,
        1 => 512 * tally.passed + 1,
        2 => g.draw(),
        _ => g.below(512 * tally.passed as usize + 1) as u64,
    };
    match g.below(8) {
        0 => tally = Tally::default(),
        1 => (tally.passed, tally.sum) = (0, 0),
        2 | 3 => fill(g, &mut tally),
        4 => overflow(g, &mut tally),
        5 => (tally.least, tally.greatest) = (g.draw(), g.draw()),
        _ => {}
    }
    tally
}

/// Near 65,535 in all, by some counter.
fn fill(g: &mut Generator, tally: &mut Tally) {
    let total = tally.passed + tally.refused.iter().sum::<u64>();
    let missing = 65_533 + g.below(4) as u64 - total;
    match g.below(37) {
        36 => tally.passed += missing,
        number => tally.refused[number] += missing,
    }
}

/// Counters whose total is none of 64 bits.
fn overflow(g: &mut Generator, tally: &mut Tally) {
    let half = [1 << 63, 1 << 32, u64::MAX, 65_536][g.below(4)];
    let (first, second) = (g.below(36), g.below(36));
    tally.refused[first] = half;
    tally.refused[second] = half.wrapping_neg();
}
