//! The sixteen calls of include/runglaet.h, safe to call from Rust. An agent whose goal byte is 255 is free: it has no goal.
//! A rule is 1 or 2, and any other number is refused with 31: under 1 an agent enters only a vertex that was vacant, under 2
//! it may follow another in the same step, and no two exchange vertices.

mod ceiling;
mod tally;

pub use ceiling::{ceiling_size, decode_ceiling, encode_ceiling, read_ceiling, write_ceiling};
pub use tally::{tally_plan, Tally};

/// The answer of every call but the size calls.
#[repr(C)]
#[derive(Debug, Clone, Copy, PartialEq, Eq)]
pub struct Answer {
    /// 0 for accepted, or the number of the refusal.
    pub number: u32,
    /// The count of an acceptance, 0 where a formula was written, or the place of a refusal.
    pub second: u64,
}

/// The size calls' answer.
#[repr(C)]
#[derive(Debug, Clone, Copy, PartialEq, Eq)]
pub struct Size {
    pub number: u32,
    /// The words of the formula, or the place of a refusal.
    pub second: u64,
    /// The clause count, 0 at a refusal.
    pub clauses: u64,
}

extern "C" {
    fn runglaet_formula_size(
        instance: *const u8,
        instance_len: usize,
        horizon: u64,
        rule: u64,
    ) -> Size;

    fn runglaet_write_formula(
        instance: *const u8,
        instance_len: usize,
        horizon: u64,
        rule: u64,
        words: *mut i32,
        words_len: usize,
    ) -> Answer;

    fn runglaet_clause(
        instance: *const u8,
        instance_len: usize,
        horizon: u64,
        rule: u64,
        clause_number: u64,
        words: *mut i32,
        words_len: usize,
    ) -> Answer;

    fn runglaet_check_plan(
        instance: *const u8,
        instance_len: usize,
        horizon: u64,
        rule: u64,
        plan: *const u8,
        plan_len: usize,
    ) -> Answer;

    fn runglaet_decode(
        instance: *const u8,
        instance_len: usize,
        horizon: u64,
        rule: u64,
        entries: *const i32,
        entries_len: usize,
        plan: *mut u8,
        plan_len: usize,
    ) -> Answer;

    fn runglaet_encode(
        instance: *const u8,
        instance_len: usize,
        horizon: u64,
        rule: u64,
        plan: *const u8,
        plan_len: usize,
        entries: *mut i32,
        entries_len: usize,
    ) -> Answer;

    fn runglaet_read_valuation(
        instance: *const u8,
        instance_len: usize,
        horizon: u64,
        rule: u64,
        text: *const u8,
        text_len: usize,
        entries: *mut i32,
        entries_len: usize,
    ) -> Answer;

    fn runglaet_floor(instance: *const u8, instance_len: usize) -> Answer;

    fn runglaet_pruned_size(
        instance: *const u8,
        instance_len: usize,
        horizon: u64,
        rule: u64,
    ) -> Size;

    fn runglaet_write_pruned(
        instance: *const u8,
        instance_len: usize,
        horizon: u64,
        rule: u64,
        words: *mut i32,
        words_len: usize,
    ) -> Answer;
}

/// The bytes of a solver's text that are read; a longer one is refused.
pub const TEXT_MAX: usize = 524_288;

// Each pointer and length below come from one slice, which stays borrowed while the call runs, and the library keeps
// no pointer.

/// The size of the formula: its words and its clause count.
pub fn formula_size(instance: &[u8], horizon: u64, rule: u64) -> Size {
    unsafe { runglaet_formula_size(instance.as_ptr(), instance.len(), horizon, rule) }
}

/// Writes the formula, as many words as [`formula_size`] says.
pub fn write_formula(instance: &[u8], horizon: u64, rule: u64, words: &mut [i32]) -> Answer {
    unsafe {
        runglaet_write_formula(
            instance.as_ptr(),
            instance.len(),
            horizon,
            rule,
            words.as_mut_ptr(),
            words.len(),
        )
    }
}

/// Writes one clause and its 0; the count is its words.
pub fn clause(
    instance: &[u8],
    horizon: u64,
    rule: u64,
    clause_number: u64,
    words: &mut [i32],
) -> Answer {
    unsafe {
        runglaet_clause(
            instance.as_ptr(),
            instance.len(),
            horizon,
            rule,
            clause_number,
            words.as_mut_ptr(),
            words.len(),
        )
    }
}

/// Checks a plan; the count is its cost, the time until rest summed over the agents, free ones too.
pub fn check_plan(instance: &[u8], horizon: u64, rule: u64, plan: &[u8]) -> Answer {
    unsafe {
        runglaet_check_plan(
            instance.as_ptr(),
            instance.len(),
            horizon,
            rule,
            plan.as_ptr(),
            plan.len(),
        )
    }
}

/// Writes the plan that a valuation names; the count is its bytes.
pub fn decode(
    instance: &[u8],
    horizon: u64,
    rule: u64,
    entries: &[i32],
    plan: &mut [u8],
) -> Answer {
    unsafe {
        runglaet_decode(
            instance.as_ptr(),
            instance.len(),
            horizon,
            rule,
            entries.as_ptr(),
            entries.len(),
            plan.as_mut_ptr(),
            plan.len(),
        )
    }
}

/// Writes the valuation of a plan; the count is its entries.
pub fn encode(
    instance: &[u8],
    horizon: u64,
    rule: u64,
    plan: &[u8],
    entries: &mut [i32],
) -> Answer {
    unsafe {
        runglaet_encode(
            instance.as_ptr(),
            instance.len(),
            horizon,
            rule,
            plan.as_ptr(),
            plan.len(),
            entries.as_mut_ptr(),
            entries.len(),
        )
    }
}

/// Writes the valuation that a solver printed; the count is its entries.
pub fn read_valuation(
    instance: &[u8],
    horizon: u64,
    rule: u64,
    text: &[u8],
    entries: &mut [i32],
) -> Answer {
    unsafe {
        runglaet_read_valuation(
            instance.as_ptr(),
            instance.len(),
            horizon,
            rule,
            text.as_ptr(),
            text.len(),
            entries.as_mut_ptr(),
            entries.len(),
        )
    }
}

/// The least horizon at which a plan could be: the count is the greatest distance from a start to its goal, in edges; a
/// free agent counts 0.
pub fn floor(instance: &[u8]) -> Answer {
    unsafe { runglaet_floor(instance.as_ptr(), instance.len()) }
}

/// The size of the pruned formula: the formula and after it family H, what the distances rule out.
pub fn pruned_size(instance: &[u8], horizon: u64, rule: u64) -> Size {
    unsafe { runglaet_pruned_size(instance.as_ptr(), instance.len(), horizon, rule) }
}

/// Writes the pruned formula, as many words as [`pruned_size`] says.
pub fn write_pruned(instance: &[u8], horizon: u64, rule: u64, words: &mut [i32]) -> Answer {
    unsafe {
        runglaet_write_pruned(
            instance.as_ptr(),
            instance.len(),
            horizon,
            rule,
            words.as_mut_ptr(),
            words.len(),
        )
    }
}
