//! Answers, and what the calls are handed and lent.

use independent::{Answer, Size, Tally};
use std::fmt::Debug;
use std::hint::black_box;

/// An answer of either program; its clauses are 0 but for the size calls'.
#[derive(Clone, Copy, Debug, PartialEq)]
pub struct Said {
    pub number: u32,
    pub second: u64,
    pub clauses: u64,
}

impl Said {
    pub fn new(number: u32, second: u64, clauses: u64) -> Said {
        Said {
            number,
            second,
            clauses,
        }
    }

    pub fn answer(self) -> Answer {
        Answer {
            number: self.number,
            second: self.second,
        }
    }

    pub fn size(self) -> Size {
        Size {
            number: self.number,
            second: self.second,
            clauses: self.clauses,
        }
    }
}

impl From<runglaet::Answer> for Said {
    fn from(answer: runglaet::Answer) -> Said {
        Said::new(answer.number, answer.second, 0)
    }
}

impl From<runglaet::Size> for Said {
    fn from(answer: runglaet::Size) -> Said {
        Said::new(answer.number, answer.second, answer.clauses)
    }
}

impl From<Answer> for Said {
    fn from(answer: Answer) -> Said {
        Said::new(answer.number, answer.second, 0)
    }
}

impl From<Size> for Said {
    fn from(answer: Size) -> Said {
        Said::new(answer.number, answer.second, answer.clauses)
    }
}

/// What lent slices hold before a call; no call writes such a value.
pub trait Pattern: Copy + PartialEq + Debug {
    fn pattern(index: usize) -> Self;

    /// What `calls` lends: words, and a plan's bytes. This slice is the one or the other.
    fn lent(slice: &[Self]) -> (Vec<i32>, Vec<u8>);
}

impl Pattern for i32 {
    fn pattern(index: usize) -> i32 {
        0x5A00_0000 + (index & 0xFF_FFFF) as i32
    }

    fn lent(slice: &[i32]) -> (Vec<i32>, Vec<u8>) {
        (slice.to_vec(), Vec::new())
    }
}

impl Pattern for u8 {
    fn pattern(index: usize) -> u8 {
        0x80 | (index as u8).wrapping_mul(37)
    }

    fn lent(slice: &[u8]) -> (Vec<i32>, Vec<u8>) {
        (Vec::new(), slice.to_vec())
    }
}

/// Kept before and after each lent slice.
pub const AFTER: usize = 21;

/// An input, away from the start of its allocation.
pub struct Input<T> {
    all: Vec<T>,
    from: usize,
}

impl<T: Pattern> Input<T> {
    pub fn new(from: usize, items: &[T]) -> Input<T> {
        let mut all = Vec::with_capacity(from + items.len());
        all.extend((0..from).map(T::pattern));
        all.extend_from_slice(items);
        Input { all, from }
    }

    pub fn items(&self) -> &[T] {
        black_box(&self.all[self.from..])
    }
}

/// The inputs of one call, for the report of a difference; what it has none of is empty, 0 or none.
#[derive(Default)]
pub struct Asked<'a> {
    pub call: usize,
    pub instance: &'a [u8],
    pub horizon: u64,
    pub rule: u64,
    pub clause: Option<u64>,
    pub ceiling: Option<u64>,
    pub plan: Option<&'a [u8]>,
    pub entries: Option<&'a [i32]>,
    pub text: Option<&'a [u8]>,
    /// The record before the call.
    pub tally: Option<Tally>,
    /// The words of a writer's formula, which its own answer does not count.
    pub words: usize,
}
