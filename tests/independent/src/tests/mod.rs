mod arrangements;
mod ceiling;
mod ceiling_meaning;
mod ceiling_wrong;
mod costs;
mod cross;
mod examples;
mod floors;
mod free;
mod numbering;
mod occupied;
mod questions;
mod reader;
mod reversing;
mod rules;
mod sizes;
mod tally;
mod tally_wrong;

use crate::questions::{failing, Handed};
use crate::{formula_size, plain, pruned_size};
use crate::{write_formula, write_formula_searching, write_pruned, Answer, Size};

/// An answer; also what a refusal expects.
fn says(number: u32, second: u64) -> Answer {
    Answer { number, second }
}

/// What a writer says when it accepts.
const WROTE: Answer = Answer {
    number: 0,
    second: 0,
};

/// What a size call says when it accepts.
fn counts(words: u64, clauses: u64) -> Size {
    Size {
        number: 0,
        second: words,
        clauses,
    }
}

/// What a size call says when it refuses.
fn uncounted(refusal: Answer) -> Size {
    refusal.into()
}

type SizeCall = fn(&[u8], u64, u64) -> Size;
type Writer = fn(&[u8], u64, u64, &mut [i32]) -> Answer;

const RULES: [u64; 2] = [1, 2];

/// The size call and the writers of the formula, and of the pruned one.
const FORMULAS: [(SizeCall, &[Writer]); 2] = [
    (formula_size, &[write_formula, write_formula_searching]),
    (pruned_size, &[write_pruned]),
];

/// No word is this number.
const UNWRITTEN: i32 = i32::MIN;

/// Size call and writers of an accepted instance against the list of the
/// clauses; gives the words.
fn compare_words(
    instance: &[u8],
    m: u64,
    rule: u64,
    pruned: bool,
    clauses: &[Vec<i32>],
) -> Vec<i32> {
    let expected = plain::words(clauses);
    let needed = expected.len();
    let (size, writers) = FORMULAS[usize::from(pruned)];
    let size = size(instance, m, rule);
    assert_eq!(size, counts(needed as u64, clauses.len() as u64));
    assert_eq!(size, closed_counts(instance, m, rule, pruned));
    for writer in writers {
        let mut words = vec![UNWRITTEN; needed + 3];
        let refused = writer(instance, m, rule, &mut words[..needed - 1]);
        assert_eq!(refused, says(12, needed as u64));
        assert!(words.iter().all(|&word| word == UNWRITTEN));
        assert_eq!(writer(instance, m, rule, &mut words), WROTE);
        assert!(
            words[..needed] == expected,
            "{instance:?}, m {m}, rule {rule}"
        );
        assert_eq!(words[needed..], [UNWRITTEN; 3]);
    }
    expected
}

/// The size by the counts of the questions: 12 is asked of an empty slice and 11
/// of the highest number. Two words more than the formula has are a clause of H.
fn closed_counts(instance: &[u8], horizon: u64, rule: u64, pruned: bool) -> Size {
    let place = |number: u32, clause: Option<u64>, pruned: bool| {
        let handed = Handed {
            instance,
            horizon,
            rule,
            clause,
            pruned,
            ..Handed::default()
        };
        failing(number, &handed)[0]
    };
    let words = place(12, None, pruned);
    let added = (words - place(12, None, false)) / 2;
    counts(words, place(11, Some(u64::MAX), false) + added)
}
