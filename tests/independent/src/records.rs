//! Records of the tally for tests: at the borders of 34, and drawn ones.

use crate::sample::Generator;
use crate::tally::COUNTERS;
use crate::Tally;

/// A record by its numbers: passed, some refusals, and sum, least and greatest.
pub fn record(passed: u64, refusals: &[(usize, u64)], costs: [u64; 3]) -> Tally {
    let mut tally = alike(0);
    for &(number, times) in refusals {
        tally.refused[number] = times;
    }
    let [sum, least, greatest] = costs;
    Tally {
        passed,
        sum,
        least,
        greatest,
        ..tally
    }
}

/// So many refusals under each number, and nothing else.
pub fn alike(times: u64) -> Tally {
    Tally {
        refused: [times; COUNTERS],
        ..Tally::default()
    }
}

/// No two counters are the same, and 34 lets it through.
pub fn uneven() -> Tally {
    let mut tally = record(5, &[], [77, 4, 30]);
    for (number, times) in tally.refused.iter_mut().enumerate() {
        *times = 11 + 3 * number as u64;
    }
    tally
}

/// What takes no more: full by one counter, by several, by all; with totals that no 64,
/// 32 or 16 bits hold; with a sum that so many plans do not cost.
pub fn full() -> Vec<Tally> {
    const MOST: u64 = u64::MAX;
    let none = [0; 3];
    let by_passed = |passed: u64, sum: u64| record(passed, &[], [sum, 0, 0]);
    let by_refused = |refusals: &[(usize, u64)]| record(0, refusals, none);
    let mut all = vec![
        by_passed(65_535, 0),
        by_passed(65_535, 512 * 65_535),
        by_passed(65_536, 3),
        by_passed(1 << 32, 3),
        by_passed(1 << 55, 0),
        by_passed(MOST, 0),
        by_passed(MOST, MOST),
        by_refused(&[(22, 65_536)]),
        by_refused(&[(7, 1 << 32)]),
        by_refused(&[(13, MOST)]),
        // Several, and all.
        record(65_534, &[(22, 1)], none),
        record(1, &[(22, 65_534)], none),
        by_refused(&[(20, 30_000), (25, 30_000), (26, 5_535)]),
        with_passed(15, alike(1_820)),
        with_passed(3, alike(1_821)),
        // In 64 bits these totals are 0 or little more.
        by_refused(&[(0, MOST), (1, 1)]),
        by_refused(&[(34, 1 << 63), (35, 1 << 63)]),
        by_refused(&[(21, MOST), (22, MOST), (26, 9)]),
        record(MOST, &[(22, 1)], none),
        record(1 << 63, &[(9, 1 << 63)], none),
        with_passed(MOST - 35, alike(1)),
        with_passed(MOST, alike(MOST)),
        alike(MOST),
        // Sums.
        by_passed(0, 1),
        by_passed(0, MOST),
        by_passed(1, 513),
        by_passed(2, 1_025),
        by_passed(127, 512 * 127 + 1),
        by_passed(128, 512 * 128 + 1),
        by_passed(5, 1 << 32),
        by_passed(65_534, 512 * 65_534 + 1),
        record(3, &[(19, 100)], [1_537, 1, 512]),
        record(0, &[(22, 65_000)], [1, 0, 0]),
    ];
    for number in [0, 1, 11, 20, 22, 33, 34, 35] {
        all.push(by_refused(&[(number, 65_535)]));
    }
    let most = Tally {
        sum: MOST,
        least: MOST,
        greatest: MOST,
        ..with_passed(MOST, alike(MOST))
    };
    all.push(most);
    all
}

/// What takes just one more, or holds what no calls from an empty record come to.
pub fn open() -> Vec<Tally> {
    let mut all = vec![
        Tally::default(),
        uneven(),
        record(65_534, &[], [512 * 65_534, 512, 512]),
        record(65_534, &[], [0; 3]),
        record(65_533, &[(22, 1)], [7, 0, 7]),
        with_passed(14, alike(1_820)),
        record(1, &[], [512, 512, 512]),
        record(128, &[], [512 * 128, 3, 512]),
        record(2, &[], [1_024, 0, 512]),
        // Least and greatest of nothing, or the wrong way round.
        record(0, &[], [0, 9, 4]),
        record(0, &[(22, 3)], [0, u64::MAX, u64::MAX]),
        record(0, &[], [0, 0, 600]),
        record(3, &[], [10, 50, 2]),
        record(3, &[], [1_536, u64::MAX, 0]),
        record(3, &[(25, 255), (26, 255)], [0, 0, u64::MAX]),
        record(255, &[(19, 255)], [255, 1, 1]),
    ];
    for number in [0, 1, 20, 22, 34, 35] {
        all.push(record(0, &[(number, 65_534)], [0; 3]));
    }
    all
}

fn with_passed(passed: u64, tally: Tally) -> Tally {
    Tally { passed, ..tally }
}

/// One that takes at least one more; least and greatest may be anything.
pub fn some_open(g: &mut Generator) -> Tally {
    let mut room = match g.below(4) {
        0 => 65_534,
        1 => 65_535 - g.below(600),
        2 => g.below(65_535),
        _ => g.below(60),
    };
    room = room.min(65_534);
    let mut tally = Tally::default();
    let parts = g.below(12);
    for part in 0..=parts {
        // Now and then the last one leaves no room but for one.
        let times = match part == parts && g.chance(50) {
            true => room,
            false => g.below(room + 1),
        };
        room -= times;
        *some_counter(g, &mut tally) += times as u64;
    }
    let most = 512 * tally.passed;
    tally.sum = match g.below(4) {
        0 => 0,
        1 => most,
        _ => g.draw() % (most + 1),
    };
    for bound in [&mut tally.least, &mut tally.greatest] {
        *bound = match g.below(6) {
            0 => 0,
            1 => [u64::MAX, 513, 1 << 32][g.below(3)],
            _ => g.below(513) as u64,
        };
    }
    tally
}

/// Passed, or the refusals under some number.
fn some_counter<'a>(g: &mut Generator, tally: &'a mut Tally) -> &'a mut u64 {
    match g.below(3) {
        0 => &mut tally.passed,
        _ => &mut tally.refused[g.below(COUNTERS)],
    }
}

/// One that takes no more, most likely: too much is counted, or the sum is too great.
pub fn some_full(g: &mut Generator) -> Tally {
    let mut tally = some_open(g);
    match g.below(6) {
        0 => {
            let counted = tally.passed + tally.refused.iter().sum::<u64>();
            let more = 65_535 - counted + g.below(3) as u64;
            *some_counter(g, &mut tally) += more;
        }
        1 => {
            let large = [65_535, 1 << 16, 1 << 32, 1 << 63, u64::MAX, g.draw()];
            *some_counter(g, &mut tally) = large[g.below(6)];
        }
        2 => {
            // Two that make 2 to the 64th.
            let half = g.draw();
            *some_counter(g, &mut tally) = half;
            *some_counter(g, &mut tally) = half.wrapping_neg();
        }
        3 | 4 => {
            let most = 512 * tally.passed;
            tally.sum = match g.below(3) {
                0 => most + 1,
                1 => most + 1 + g.below(512) as u64,
                _ => [u64::MAX, 1 << 63, 1 << 32][g.below(3)],
            };
        }
        _ => {
            tally.passed = g.draw();
            tally.refused.iter_mut().for_each(|times| *times = g.draw());
            tally.sum = g.draw();
        }
    }
    tally
}

/// Any: at a border, or drawn.
pub fn some_record(g: &mut Generator) -> Tally {
    match g.below(6) {
        0 => {
            let all = full();
            all[g.below(all.len())]
        }
        1 | 2 => {
            let all = open();
            all[g.below(all.len())]
        }
        3 => some_full(g),
        _ => some_open(g),
    }
}
