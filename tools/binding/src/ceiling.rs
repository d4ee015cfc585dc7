//! The five calls with a cost ceiling. A ceiling is from 0 to 128, and any other number is refused with 32.

use crate::{Answer, Size};

extern "C" {
    fn runglaet_ceiling_size(
        instance: *const u8,
        instance_len: usize,
        horizon: u64,
        rule: u64,
        ceiling: u64,
    ) -> Size;

    fn runglaet_write_ceiling(
        instance: *const u8,
        instance_len: usize,
        horizon: u64,
        rule: u64,
        ceiling: u64,
        words: *mut i32,
        words_len: usize,
    ) -> Answer;

    fn runglaet_decode_ceiling(
        instance: *const u8,
        instance_len: usize,
        horizon: u64,
        rule: u64,
        ceiling: u64,
        entries: *const i32,
        entries_len: usize,
        plan: *mut u8,
        plan_len: usize,
    ) -> Answer;

    fn runglaet_encode_ceiling(
        instance: *const u8,
        instance_len: usize,
        horizon: u64,
        rule: u64,
        ceiling: u64,
        plan: *const u8,
        plan_len: usize,
        entries: *mut i32,
        entries_len: usize,
    ) -> Answer;

    fn runglaet_read_ceiling(
        instance: *const u8,
        instance_len: usize,
        horizon: u64,
        rule: u64,
        ceiling: u64,
        text: *const u8,
        text_len: usize,
        entries: *mut i32,
        entries_len: usize,
    ) -> Answer;
}

// As in the crate's root, each pointer and length come from one slice, which stays borrowed while the call runs.

/// The size of the formula with a ceiling: its words and its clause count.
pub fn ceiling_size(instance: &[u8], horizon: u64, rule: u64, ceiling: u64) -> Size {
    unsafe { runglaet_ceiling_size(instance.as_ptr(), instance.len(), horizon, rule, ceiling) }
}

/// Writes the formula with a ceiling, as many words as [`ceiling_size`] says.
pub fn write_ceiling(
    instance: &[u8],
    horizon: u64,
    rule: u64,
    ceiling: u64,
    words: &mut [i32],
) -> Answer {
    unsafe {
        runglaet_write_ceiling(
            instance.as_ptr(),
            instance.len(),
            horizon,
            rule,
            ceiling,
            words.as_mut_ptr(),
            words.len(),
        )
    }
}

/// Writes the plan that a valuation of all variables names, which costs at most the ceiling; the count is its bytes.
pub fn decode_ceiling(
    instance: &[u8],
    horizon: u64,
    rule: u64,
    ceiling: u64,
    entries: &[i32],
    plan: &mut [u8],
) -> Answer {
    unsafe {
        runglaet_decode_ceiling(
            instance.as_ptr(),
            instance.len(),
            horizon,
            rule,
            ceiling,
            entries.as_ptr(),
            entries.len(),
            plan.as_mut_ptr(),
            plan.len(),
        )
    }
}

/// Writes a valuation of all variables for a plan that costs at most the ceiling; the count is its entries.
pub fn encode_ceiling(
    instance: &[u8],
    horizon: u64,
    rule: u64,
    ceiling: u64,
    plan: &[u8],
    entries: &mut [i32],
) -> Answer {
    unsafe {
        runglaet_encode_ceiling(
            instance.as_ptr(),
            instance.len(),
            horizon,
            rule,
            ceiling,
            plan.as_ptr(),
            plan.len(),
            entries.as_mut_ptr(),
            entries.len(),
        )
    }
}

/// Writes the valuation of all variables that a solver printed; the count is its entries.
pub fn read_ceiling(
    instance: &[u8],
    horizon: u64,
    rule: u64,
    ceiling: u64,
    text: &[u8],
    entries: &mut [i32],
) -> Answer {
    unsafe {
        runglaet_read_ceiling(
            instance.as_ptr(),
            instance.len(),
            horizon,
            rule,
            ceiling,
            text.as_ptr(),
            text.len(),
            entries.as_mut_ptr(),
            entries.len(),
        )
    }
}
