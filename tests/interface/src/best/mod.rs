//! The jobs of the library in plain safe Rust, written for speed from the scope document: what the benchmark's targets
//! are held against.

pub mod agreement;
mod ceiling;
pub mod ceiling_agreement;
pub mod ceiling_model;
mod clause;
mod distances;
mod exchanges;
mod formula;
mod instance;
mod plan;
mod reader;
mod straight;
mod tally;
pub mod tally_agreement;
mod tree;
mod valuation;

pub use ceiling::{ceiling_size, decode_ceiling, decode_ceiling_by_sums, encode_ceiling};
pub use ceiling::{read_ceiling, read_ceiling_straight};
pub use ceiling::{write_ceiling, write_ceiling_straight};
pub use clause::clause;
pub use distances::{floor, floor_by_queue, floor_from_starts};
pub use formula::{formula_size, formula_size_with_words, pruned_size, pruned_size_by_table};
pub use formula::{write_formula, write_formula_straight, write_pruned, write_pruned_straight};
pub use plan::{check_instance, check_plan};
pub use reader::{read_valuation, read_valuation_straight};
pub use tally::tally_plan;
pub use valuation::{decode, encode};

use independent::Answer;

/// Turns a count or a refusal into the answer.
fn answer(result: Result<usize, Answer>) -> Answer {
    result.map_or_else(
        |refusal| refusal,
        |count| Answer {
            number: 0,
            second: count as u64,
        },
    )
}
