//! The library's fifteen calls, and inputs for them.

#![forbid(unsafe_code)]

pub mod input;

pub use runglaet::{ceiling_size, decode_ceiling, encode_ceiling, read_ceiling, write_ceiling};
pub use runglaet::{check_plan, clause, decode, encode, floor, read_valuation};
pub use runglaet::{formula_size, pruned_size, write_formula, write_pruned, Size};
