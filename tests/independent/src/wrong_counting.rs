//! How a wrong tally might ask 34, and what it might count.

use crate::questions::{Item, ASKED, PLAN};
use crate::tally::{COUNTERS, FULL};
use crate::Tally;

pub(crate) fn total(tally: &Tally) -> u128 {
    u128::from(tally.passed) + refused(tally)
}

fn refused(tally: &Tally) -> u128 {
    tally.refused.iter().map(|&times| u128::from(times)).sum()
}

/// The refusals under the numbers that the plan check never gives.
fn never_given(tally: &Tally) -> u128 {
    let all = tally.refused.iter().zip(0..);
    let never = all.filter(|(_, number)| !ASKED[PLAN].contains(number));
    never.map(|(&times, _)| u128::from(times)).sum()
}

/// Does the sum exceed so many times a number?
fn above(tally: &Tally, times: u128, number: u128) -> bool {
    u128::from(tally.sum) > times * number
}

fn passed(tally: &Tally) -> u128 {
    tally.passed.into()
}

fn too_many(total: u128) -> bool {
    total >= FULL.into()
}

fn too_dear(tally: &Tally) -> bool {
    above(tally, 512, passed(tally))
}

pub(crate) fn is_full(tally: &Tally) -> bool {
    too_many(total(tally)) || too_dear(tally)
}

/// What is asked at 34: a name, and whether it refuses the record.
pub(crate) type Full = fn(&Tally) -> bool;
pub(crate) const QUESTIONS: &[(&str, Full)] = &[
    ("34: never given", |_| false),
    ("34: the total not asked", too_dear),
    ("34: the sum not asked", |x| too_many(total(x))),
    ("34: only where both are too great", |x| {
        too_many(total(x)) && too_dear(x)
    }),
    ("34: the total without passed", |x| {
        too_many(refused(x)) || too_dear(x)
    }),
    ("34: the total without the refused", |x| {
        too_many(passed(x)) || too_dear(x)
    }),
    ("34: the total of the numbers given alone", |x| {
        too_many(total(x) - never_given(x)) || too_dear(x)
    }),
    ("34: passed and refused each by itself", |x| {
        too_many(passed(x)) || too_many(refused(x)) || too_dear(x)
    }),
    ("34: each counter by itself", |x| {
        let mut all = x.refused.iter().chain([&x.passed]);
        all.any(|&times| times >= FULL) || too_dear(x)
    }),
    ("34: 65,535 let through", |x| {
        total(x) > FULL.into() || too_dear(x)
    }),
    ("34: 65,534 refused", |x| {
        too_many(total(x) + 1) || too_dear(x)
    }),
    ("34: 65,535 alone refused", |x| {
        total(x) == FULL.into() || too_dear(x)
    }),
    ("34: the total in 64 bits", |x| {
        too_many((total(x) as u64).into()) || too_dear(x)
    }),
    ("34: the total in 32 bits", |x| {
        too_many((total(x) as u32).into()) || too_dear(x)
    }),
    ("34: the total in 16 bits", |x| {
        too_many((total(x) as u16).into()) || too_dear(x)
    }),
    ("34: a sum of 512 times passed refused", |x| {
        let equal = x.sum > 0 && u128::from(x.sum) == 512 * passed(x);
        equal || is_full(x)
    }),
    ("34: an empty sum refused", |x| x.sum == 0 || is_full(x)),
    ("34: a sum greater by one let through", |x| {
        too_many(total(x)) || u128::from(x.sum) > 512 * passed(x) + 1
    }),
    ("34: the sum in plans, rounded down", |x| {
        too_many(total(x)) || x.sum / 512 > x.passed
    }),
    ("34: 511 times passed", |x| {
        too_many(total(x)) || above(x, 511, passed(x))
    }),
    ("34: 513 times passed", |x| {
        too_many(total(x)) || above(x, 513, passed(x))
    }),
    ("34: 512 alone", |x| too_many(total(x)) || x.sum > 512),
    ("34: 512 times the total", |x| {
        too_many(total(x)) || above(x, 512, total(x))
    }),
    ("34: 512 times passed with this plan", |x| {
        too_many(total(x)) || above(x, 512, passed(x) + 1)
    }),
    ("34: 512 times passed in 16 bits", |x| {
        let most = 512 * passed(x);
        too_many(total(x)) || u128::from(x.sum) > (most as u16).into()
    }),
    ("34: the sum in 32 bits", |x| {
        let sum = u128::from(x.sum as u32);
        too_many(total(x)) || sum > 512 * passed(x)
    }),
    ("34: the sum not asked while none has passed", |x| {
        too_many(total(x)) || x.passed > 0 && too_dear(x)
    }),
    ("34: least above greatest refused", |x| {
        x.least > x.greatest || is_full(x)
    }),
    ("34: a greatest cost above 512 refused", |x| {
        x.greatest > 512 || is_full(x)
    }),
    ("34: costs while none has passed refused", |x| {
        x.passed == 0 && x.least.max(x.greatest) > 0 || is_full(x)
    }),
    ("34: a sum below the greatest refused", |x| {
        x.sum < x.greatest || is_full(x)
    }),
    ("34: a sum below the least of so many refused", |x| {
        u128::from(x.sum) < passed(x) * u128::from(x.least) || is_full(x)
    }),
    ("34: a number that is never given refused", |x| {
        never_given(x) > 0 || is_full(x)
    }),
];

/// The same, with one counter of the refused that is taken wrongly.
pub(crate) type FullBy = fn(&Tally, usize) -> bool;
pub(crate) const BY_COUNTER: &[(&str, FullBy)] = &[
    ("34: one counter left out of the total", |x, number| {
        too_many(total(x) - u128::from(x.refused[number])) || too_dear(x)
    }),
    ("34: one counter twice in the total", |x, number| {
        too_many(total(x) + u128::from(x.refused[number])) || too_dear(x)
    }),
];

/// What becomes of a record in which a pass was counted rightly: given are the record
/// before, and the cost.
pub(crate) type Pass = fn(&Tally, u64, &mut Tally);
pub(crate) const PASSES: &[(&str, Pass)] = &[
    ("pass: not counted", |old, _, new| new.passed = old.passed),
    ("pass: counted twice", |_, _, new| new.passed += 1),
    ("pass: under refused[0]", |old, _, new| {
        new.passed = old.passed;
        new.refused[0] += 1;
    }),
    ("pass: under refused[0] too", |_, _, new| {
        new.refused[0] += 1
    }),
    ("pass: the refused cleared", |_, _, new| {
        new.refused = [0; COUNTERS];
    }),
    ("pass: counted in a byte", |_, _, new| new.passed %= 256),
    ("sum: the cost not added", |old, _, new| new.sum = old.sum),
    ("sum: the last cost", |_, cost, new| new.sum = cost),
    ("sum: 1 for each", |old, _, new| new.sum = old.sum + 1),
    ("sum: the cost twice", |_, cost, new| new.sum += cost),
    ("sum: the cost's low byte", |old, cost, new| {
        new.sum = old.sum + cost % 256;
    }),
    ("sum: in 16 bits", |_, _, new| new.sum %= 65_536),
    ("least: what it held counts at first", |old, cost, new| {
        new.least = old.least.min(cost);
    }),
    (
        "greatest: what it held counts at first",
        |old, cost, new| {
            new.greatest = old.greatest.max(cost);
        },
    ),
    ("least: 0 after the first pass", |old, _, new| {
        if old.passed == 0 {
            new.least = 0;
        }
    }),
    ("greatest: 0 after the first pass", |old, _, new| {
        if old.passed == 0 {
            new.greatest = 0;
        }
    }),
    ("least: not set by the first pass", |old, _, new| {
        if old.passed == 0 {
            new.least = old.least;
        }
    }),
    ("greatest: not set by the first pass", |old, _, new| {
        if old.passed == 0 {
            new.greatest = old.greatest;
        }
    }),
    ("least: 0 taken for none", |old, cost, new| {
        if old.least == 0 {
            new.least = cost;
        }
    }),
    (
        "first pass: where nothing at all is counted",
        |old, cost, new| {
            if total(old) > 0 {
                held(old, cost, new);
            }
        },
    ),
    (
        "first pass: where the sum is 0",
        |old, cost, new| match old.sum {
            0 => set(cost, new),
            _ => held(old, cost, new),
        },
    ),
    (
        "first pass: where least and greatest are 0",
        |old, cost, new| match (old.least, old.greatest) {
            (0, 0) => set(cost, new),
            _ => held(old, cost, new),
        },
    ),
    ("every pass taken for the first", |_, cost, new| {
        set(cost, new)
    }),
    ("least: the last cost", |_, cost, new| new.least = cost),
    ("greatest: the last cost", |_, cost, new| {
        new.greatest = cost
    }),
    ("least: the greater", |old, cost, new| {
        new.least = old.least.max(cost);
    }),
    ("greatest: the lesser", |old, cost, new| {
        new.greatest = old.greatest.min(cost);
    }),
    ("least and greatest exchanged", |_, _, new| {
        (new.least, new.greatest) = (new.greatest, new.least);
    }),
    ("least: kept after the first pass", |old, _, new| {
        if old.passed > 0 {
            new.least = old.least;
        }
    }),
    ("greatest: kept after the first pass", |old, _, new| {
        if old.passed > 0 {
            new.greatest = old.greatest;
        }
    }),
    ("greatest: at most 511", |_, _, new| {
        new.greatest = new.greatest.min(511);
    }),
];

/// Least and greatest as if some plan had passed before.
fn held(old: &Tally, cost: u64, new: &mut Tally) {
    new.least = old.least.min(cost);
    new.greatest = old.greatest.max(cost);
}

fn set(cost: u64, new: &mut Tally) {
    (new.least, new.greatest) = (cost, cost);
}

/// What becomes of a record in which a refusal was counted rightly: given are the record
/// before, and number and place.
pub(crate) type Refusal = fn(&Tally, Item, &mut Tally);
pub(crate) const REFUSALS: &[(&str, Refusal)] = &[
    ("refusal: passed counted too", |_, _, new| new.passed += 1),
    ("refusal: passed in its place", |old, _, new| {
        *new = *old;
        new.passed += 1;
    }),
    ("refusal: all under 0", |old, _, new| under(0, old, new)),
    ("refusal: all under 1", |old, _, new| under(1, old, new)),
    ("refusal: all under 34", |old, _, new| under(34, old, new)),
    ("refusal: all under 35", |old, _, new| under(35, old, new)),
    ("refusal: under its place", |old, (_, place), new| {
        under(place as usize % COUNTERS, old, new);
    }),
    ("refusal: 1 to 9 under 1", |old, (number, _), new| {
        folded((1..=9).contains(&number), 1, old, new);
    }),
    ("refusal: 31 under 10", |old, (number, _), new| {
        folded(number == 31, 10, old, new);
    }),
    ("refusal: 25 and 26 under 20", |old, (number, _), new| {
        folded(matches!(number, 25 | 26), 20, old, new);
    }),
    ("refusal: 25 under 26", |old, (number, _), new| {
        folded(number == 25, 26, old, new);
    }),
    ("refusal: 26 under 25", |old, (number, _), new| {
        folded(number == 26, 25, old, new);
    }),
    ("refusal: every step's under 19", |old, (number, _), new| {
        folded(matches!(number, 20 | 21 | 25 | 26), 19, old, new);
    }),
    ("refusal: 17 to 22 under 13", |old, (number, _), new| {
        folded(matches!(number, 17..=22 | 25 | 26), 13, old, new);
    }),
    ("refusal: counted in a byte", |_, (number, _), new| {
        new.refused[number as usize] %= 256;
    }),
    ("refusal: its counter set to 1", |_, (number, _), new| {
        new.refused[number as usize] = 1;
    }),
    (
        "refusal: the other counters cleared",
        |_, (number, _), new| {
            let times = new.refused[number as usize];
            new.refused = [0; COUNTERS];
            new.refused[number as usize] = times;
        },
    ),
    ("refusal: counters above 33 cleared", |_, _, new| {
        new.refused[34..].fill(0);
    }),
    (
        "refusal: its place added to the sum",
        |_, (_, place), new| {
            new.sum += place;
        },
    ),
    ("refusal: 1 added to the sum", |_, _, new| new.sum += 1),
    ("refusal: the sum cleared", |_, _, new| new.sum = 0),
    ("refusal: least cleared", |_, _, new| new.least = 0),
    ("refusal: greatest cleared", |_, _, new| new.greatest = 0),
    ("refusal: its place for the least", |_, (_, place), new| {
        new.least = new.least.min(place);
    }),
    (
        "refusal: its place for the greatest",
        |_, (_, place), new| {
            new.greatest = new.greatest.max(place);
        },
    ),
    ("refusal: least and greatest put right", |_, _, new| {
        if new.passed == 0 {
            (new.least, new.greatest) = (0, 0);
        }
    }),
];

/// The refusal is counted under this number.
fn under(number: usize, old: &Tally, new: &mut Tally) {
    *new = *old;
    new.refused[number] += 1;
}

/// The same, if it is one of those that are folded.
fn folded(folds: bool, number: usize, old: &Tally, new: &mut Tally) {
    if folds {
        under(number, old, new);
    }
}

/// The same for one number alone, each that the plan check gives.
pub(crate) type RefusalBy = fn(&Tally, usize, &mut Tally);
pub(crate) const BY_NUMBER: &[(&str, RefusalBy)] = &[
    ("refusal: under the number above", |old, number, new| {
        under(number + 1, old, new);
    }),
    ("refusal: under the number below", |old, number, new| {
        under(number - 1, old, new);
    }),
    ("refusal: not counted", |old, _, new| *new = *old),
    ("refusal: counted twice", |_, number, new| {
        new.refused[number] += 1;
    }),
    ("refusal: under the number above too", |_, number, new| {
        new.refused[number + 1] += 1;
    }),
];
