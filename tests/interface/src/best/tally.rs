//! The plan check, counted in a record.

use super::check_plan;
use independent::{Answer, Tally};

/// So many plans fill a record.
const FULL: u64 = 65_535;
/// No plan costs more.
const DEAREST: u64 = 512;

pub fn tally_plan(
    instance: &[u8],
    horizon: u64,
    rule: u64,
    plan: &[u8],
    tally: &mut Tally,
) -> Answer {
    if is_full(tally) {
        return Answer {
            number: 34,
            second: FULL,
        };
    }
    let answer = check_plan(instance, horizon, rule, plan);
    match answer.number {
        0 => pass(tally, answer.second),
        number => tally.refused[number as usize] += 1,
    }
    answer
}

/// Several counters at once: where none has a bit from the sixteenth on, their total does not overflow.
fn is_full(tally: &Tally) -> bool {
    let (mut bits, mut total) = (tally.passed, tally.passed);
    for &count in &tally.refused {
        bits |= count;
        total = total.wrapping_add(count);
    }
    bits > FULL || total >= FULL || tally.sum > DEAREST * tally.passed
}

fn pass(tally: &mut Tally, cost: u64) {
    if tally.passed == 0 {
        (tally.least, tally.greatest) = (cost, cost);
    }
    tally.passed += 1;
    tally.sum += cost;
    tally.least = tally.least.min(cost);
    tally.greatest = tally.greatest.max(cost);
}
