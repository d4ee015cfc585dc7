//! Each call in its forms: the library's, the best Rust one and the independent program's.

use crate::best;
use crate::best::agreement::same;
use interface as library;
use std::hash::{DefaultHasher, Hash, Hasher};

/// An answer's number and second number.
pub type Said = (u32, u64);
pub type Writer = fn(&[u8], u64, u64, &mut [i32]) -> Said;
pub type PlanCheck = fn(&[u8], u64, u64, &[u8]) -> Said;
pub type Decoder = fn(&[u8], u64, u64, &[i32], &mut [u8]) -> Said;
pub type Encoder = fn(&[u8], u64, u64, &[u8], &mut [i32]) -> Said;
pub type Reader = fn(&[u8], u64, u64, &[u8], &mut [i32]) -> Said;
pub type OneClause = fn(&[u8], u64, u64, u64, &mut [i32]) -> Said;
pub type Floor = fn(&[u8]) -> Said;
/// The clause count too.
pub type SizeCall = fn(&[u8], u64, u64) -> (u32, u64, u64);

/// A call of the library, of the best Rust forms and of the independent program.
macro_rules! forms {
    ($call:ident($($x:ident),+)) => {
        [
            |$($x),+| { let answer = library::$call($($x),+); (answer.number, answer.second) },
            |$($x),+| { let answer = best::$call($($x),+); (answer.number, answer.second) },
            |$($x),+| { let answer = independent::$call($($x),+); (answer.number, answer.second) },
        ]
    };
}

pub const WRITERS: [Writer; 3] = forms!(write_formula(instance, m, rule, words));
pub const PLAN_CHECKS: [PlanCheck; 3] = forms!(check_plan(instance, m, rule, plan));
pub const DECODERS: [Decoder; 3] = forms!(decode(instance, m, rule, entries, plan));
pub const ENCODERS: [Encoder; 3] = forms!(encode(instance, m, rule, plan, entries));
pub const READERS: [Reader; 3] = forms!(read_valuation(instance, m, rule, text, entries));
pub const ONE_CLAUSES: [OneClause; 3] = forms!(clause(instance, m, rule, number, words));
pub const FLOORS: [Floor; 3] = forms!(floor(instance));
pub const PRUNED_WRITERS: [Writer; 3] = forms!(write_pruned(instance, m, rule, words));

/// A size call.
macro_rules! size {
    ($module:ident::$call:ident) => {
        |instance, m, rule| {
            let size = $module::$call(instance, m, rule);
            (size.number, size.second, size.clauses)
        }
    };
}

/// The library's, the form of the target, the independent program's, and the fastest form.
pub const FORMULA_SIZES: [SizeCall; 4] = [
    size!(library::formula_size),
    size!(best::formula_size_with_words),
    size!(independent::formula_size),
    size!(best::formula_size),
];
pub const PRUNED_SIZES: [SizeCall; 4] = [
    size!(library::pruned_size),
    size!(best::pruned_size_by_table),
    size!(independent::pruned_size),
    size!(best::pruned_size),
];

/// Compares the words that the forms write with those of the third, by a sum over them. There is one buffer for all: a
/// formula under rule 2 may take 334 million bytes.
pub fn agree_on_words<const COUNT: usize>(
    words: &mut [i32],
    write: impl Fn(usize, &mut [i32]) -> Said,
) {
    let mut sums = [0; COUNT].map(|_| (0, 0));
    for (form, sum) in sums.iter_mut().enumerate() {
        words.fill(1);
        assert_eq!(write(form, words), (0, 0));
        let mut hasher = DefaultHasher::new();
        words.hash(&mut hasher);
        *sum = (hasher.finish(), words.len());
    }
    assert!(sums.iter().all(|sum| *sum == sums[2]), "the words differ");
}

/// Compares the library and the best Rust form with the independent program on an input to be timed.
pub fn agree<T: Clone + PartialEq>(lent: &[T], call: impl Fn(usize, &mut [T]) -> Said) {
    for form in [0, 1] {
        same(lent, |slice| call(form, slice), |slice| call(2, slice));
    }
}
