//! The size calls, and the writers beside them.

use super::{counts, says, uncounted, Writer, FORMULAS, UNWRITTEN, WROTE};
use crate::parts::malform;
use crate::questions::ASKED;
use crate::sample::{refused_twice, Generator, WRONG_RULES};
use crate::sizes::{worked, Told};
use crate::*;
use std::collections::BTreeSet;

/// What a writer answers with so many words lent, how many it fills, and how many
/// of these are 0.
fn write(
    writer: Writer,
    instance: &[u8],
    (horizon, rule): (u64, u64),
    lent: usize,
) -> (Answer, usize, usize) {
    let mut words = vec![UNWRITTEN; lent];
    let answer = writer(instance, horizon, rule, &mut words);
    let filled = words.iter().take_while(|&&word| word != UNWRITTEN).count();
    assert!(words[filled..].iter().all(|&word| word == UNWRITTEN));
    let zeros = words[..filled].iter().filter(|&&word| word == 0).count();
    (answer, filled, zeros)
}

/// A writer accepts exactly where its size call does and the slice has so many
/// words or more; it fills so many, with a 0 for each clause. Its refusal is that
/// of the size call, or else 12.
fn compare(
    pruned: bool,
    instance: &[u8],
    (horizon, rule): (u64, u64),
    lent: usize,
    told: &mut Told,
) -> Size {
    let (size, writers) = FORMULAS[usize::from(pruned)];
    let size = size(instance, horizon, rule);
    let needed = size.second as usize;
    for &writer in writers {
        let (answer, filled, zeros) = write(writer, instance, (horizon, rule), lent);
        let expected = match size.number {
            0 if lent >= needed => (WROTE, needed, size.clauses as usize),
            0 => (says(12, size.second), 0, 0),
            number => (says(number, size.second), 0, 0),
        };
        assert_eq!((answer, filled, zeros), expected, "{instance:?}, {lent}");
        told.writer(pruned, answer, size, lent);
    }
    size
}

/// The sizes that are worked out by hand, and refusals; they tell every wrong
/// program from the right one.
#[test]
fn worked_sizes() {
    let mut told = Told::default();
    for (instance, m, rule, expected) in worked() {
        let sizes = [
            formula_size(&instance, m, rule),
            pruned_size(&instance, m, rule),
        ];
        for (pruned, (words, clauses)) in [false, true].into_iter().zip(expected) {
            assert_eq!(sizes[usize::from(pruned)], counts(words, clauses));
            told.size(pruned, &instance, (m, rule), sizes);
            let words = words as usize;
            for lent in [0, words - 1, words, words + 1] {
                compare(pruned, &instance, (m, rule), lent, &mut told);
            }
        }
    }
    for (instance, m, rule, [(number, place), _]) in refused_twice() {
        let refused = uncounted(says(number, place));
        for pruned in [false, true] {
            told.size(pruned, &instance, (m, rule), [refused; 2]);
            assert_eq!(compare(pruned, &instance, (m, rule), 9, &mut told), refused);
        }
    }
    assert_eq!(told.missing(), [""; 0]);
}

/// The horizon is asked after the instance, and then the rule; no question about a
/// slice follows.
#[test]
fn the_rule_is_asked_last() {
    for (instance, _, _, [(number, place), _]) in refused_twice() {
        if number >= 10 {
            continue;
        }
        for (size, _) in FORMULAS {
            let refused = uncounted(says(number, place));
            assert_eq!(size(&instance, u64::MAX, u64::MAX), refused);
        }
    }
    for (instance, m, ..) in worked() {
        for (size, _) in FORMULAS {
            assert_eq!(size(&instance, 33, 1), uncounted(says(10, 0)));
            for rule in WRONG_RULES {
                assert_eq!(size(&instance, 33, rule), uncounted(says(10, 0)));
                assert_eq!(size(&instance, m, rule), uncounted(says(31, 0)));
            }
        }
    }
}

/// Any instances, right and damaged, and slices around the size. Each number
/// comes, and family H has the words by which the pruned formula is longer.
#[test]
fn writers_keep_to_the_sizes() {
    let mut random = Generator::new(41);
    let mut told = Told::default();
    let mut seen = [BTreeSet::new(), BTreeSet::new()];
    for _ in 0..6_000 {
        let n = 1 + random.below(9);
        let k = 1 + random.below(n.min(4));
        let mut instance = random.mapped(n, k);
        let mut horizon = random.below(8) as u64;
        if random.chance(50) {
            let kind = 1 + random.below(13);
            instance = malform(&mut random, kind, &instance);
        }
        if random.chance(10) {
            horizon = [32, 33, 1 << 32, u64::MAX][random.below(4)];
        }
        let rule = match random.chance(10) {
            true => random.wrong_rule(),
            false => random.rule(),
        };
        let sizes = [false, true].map(|pruned| {
            let (size, _) = FORMULAS[usize::from(pruned)];
            let needed = size(&instance, horizon, rule).second as usize;
            let lent = match random.below(4) {
                0 => needed.saturating_sub(1),
                1 => needed,
                2 => needed + 1 + random.below(9),
                _ => random.below(needed + 1),
            };
            compare(pruned, &instance, (horizon, rule), lent, &mut told)
        });
        let [formula, pruned] = sizes;
        for (pruned, size) in [false, true].into_iter().zip(sizes) {
            seen[usize::from(pruned)].insert(size.number);
            told.size(pruned, &instance, (horizon, rule), sizes);
        }
        if formula.number == 0 {
            let clauses = plain::family_h(&instance, horizon).len() as u64;
            assert_eq!(pruned.clauses - formula.clauses, clauses);
            assert_eq!(pruned.second - formula.second, 2 * clauses);
        } else {
            assert_eq!(pruned, formula);
        }
    }
    for (seen, numbers) in seen.iter().zip(&ASKED[8..10]) {
        let numbers: BTreeSet<u32> = [0].iter().chain(*numbers).copied().collect();
        assert_eq!(*seen, numbers);
    }
    assert_eq!(told.missing(), [""; 0]);
}
