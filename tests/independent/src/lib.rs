//! A second, independent program for shuttle formulas, valuations and plans.
//!
//! The sixteen calls and `check_instance` work on raw bytes and never panic; `calls`
//! makes them by number. `plain` generates the clauses slowly, `questions` asks one
//! question at a time, `sample`, `closing`, `parts` and `output` make test inputs,
//! `costs` has plans with known costs, `floors` maps with known floors and families
//! H, `sizes` formulas with known sizes, `free` instances with agents that have no
//! goal, `rules` those on which the movement rule matters, `wrong_rules` programs that
//! are wrong about it. `reversing` holds and reverses plans and exchanges starts and
//! goals, `worked_reversing` has such plans with known answers, `wrong_reversing`
//! programs that are wrong about this. `plain_ceiling` is `plain` for the formula with
//! a ceiling, `worked_ceiling` has such formulas, answers and sizes by hand,
//! `wrong_ceiling` programs that are wrong about it. `histories` has lists of calls of
//! the tally and what they state, `records` has records for it, `worked_tally` plans and
//! records by hand, `wrong_tally` programs that are wrong about it. `text` prints a
//! formula as DIMACS CNF.

#![forbid(unsafe_code)]

mod asked;
mod base_counts;
pub mod calls;
mod ceiling;
mod ceiling_counts;
mod ceiling_valuation;
pub mod closing;
pub mod costs;
mod distances;
pub mod floors;
mod formula;
pub mod free;
pub mod histories;
mod instance;
pub mod output;
pub mod parts;
pub mod plain;
pub mod plain_ceiling;
mod plan;
pub mod questions;
mod reader;
pub mod records;
pub mod reversing;
pub mod rules;
pub mod sample;
pub mod sizes;
mod tally;
pub mod text;
mod twice;
mod valuation;
pub mod worked_ceiling;
pub mod worked_reversing;
pub mod worked_tally;
pub mod wrong_ceiling;
mod wrong_counting;
mod wrong_designs;
mod wrong_formula;
pub mod wrong_reversing;
pub mod wrong_rules;
mod wrong_steps;
pub mod wrong_tally;

#[cfg(test)]
mod tests;

pub use ceiling::{ceiling_size, write_ceiling, HIGHEST_CEILING};
pub use ceiling_valuation::{decode_ceiling, encode_ceiling, read_ceiling};
pub use distances::floor;
pub use formula::{clause, formula_size, pruned_size};
pub use formula::{write_formula, write_formula_searching, write_pruned};
pub use instance::{check_instance, is_free, NO_GOAL};
pub use plan::check_plan;
pub use reader::{read_valuation, LONGEST_TEXT};
pub use tally::{tally_plan, Tally};
pub use valuation::{decode, encode};

/// `number` 0: accepted, `second` is the count, 0 where a formula was written.
/// Otherwise `number` tells which question was answered no, and `second` is its
/// place.
#[derive(Debug, Clone, Copy, PartialEq, Eq)]
pub struct Answer {
    pub number: u32,
    pub second: u64,
}

/// The size calls' answer: `second` is the word count. At a refusal it is the
/// place, and `clauses` is 0.
#[derive(Debug, Clone, Copy, PartialEq, Eq)]
pub struct Size {
    pub number: u32,
    pub second: u64,
    pub clauses: u64,
}

impl From<Answer> for Size {
    /// Nothing is counted.
    fn from(answer: Answer) -> Size {
        Size {
            number: answer.number,
            second: answer.second,
            clauses: 0,
        }
    }
}

/// A refusal, in the form the `?` operator hands upwards.
fn refuse<T>(number: u32, place: usize) -> Result<T, Answer> {
    Err(Answer {
        number,
        second: place as u64,
    })
}

/// Turns a count or a refusal into the answer.
fn answer(result: Result<usize, Answer>) -> Answer {
    match result {
        Ok(count) => Answer {
            number: 0,
            second: count as u64,
        },
        Err(refusal) => refusal,
    }
}
