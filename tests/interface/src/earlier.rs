//! The calls of a library from before S-10, which take no rule. Such a library has them under the same names as one of
//! today, so a program that is linked with it must call these.

#![allow(unsafe_code)]

use runglaet::{Answer, Size};

extern "C" {
    fn runglaet_write_formula(
        instance: *const u8,
        instance_len: usize,
        horizon: u64,
        words: *mut i32,
        words_len: usize,
    ) -> Answer;
    fn runglaet_clause(
        instance: *const u8,
        instance_len: usize,
        horizon: u64,
        clause_number: u64,
        words: *mut i32,
        words_len: usize,
    ) -> Answer;
    fn runglaet_check_plan(
        instance: *const u8,
        instance_len: usize,
        horizon: u64,
        plan: *const u8,
        plan_len: usize,
    ) -> Answer;
    fn runglaet_decode(
        instance: *const u8,
        instance_len: usize,
        horizon: u64,
        entries: *const i32,
        entries_len: usize,
        plan: *mut u8,
        plan_len: usize,
    ) -> Answer;
    fn runglaet_encode(
        instance: *const u8,
        instance_len: usize,
        horizon: u64,
        plan: *const u8,
        plan_len: usize,
        entries: *mut i32,
        entries_len: usize,
    ) -> Answer;
    fn runglaet_read_valuation(
        instance: *const u8,
        instance_len: usize,
        horizon: u64,
        text: *const u8,
        text_len: usize,
        entries: *mut i32,
        entries_len: usize,
    ) -> Answer;
    fn runglaet_write_pruned(
        instance: *const u8,
        instance_len: usize,
        horizon: u64,
        words: *mut i32,
        words_len: usize,
    ) -> Answer;
    fn runglaet_formula_size(instance: *const u8, instance_len: usize, horizon: u64) -> Size;
    fn runglaet_pruned_size(instance: *const u8, instance_len: usize, horizon: u64) -> Size;
}

// Each pointer and length below come from one slice, which stays borrowed while the call runs, and the library keeps
// no pointer.

/// A call with an instance, a horizon and these slices and numbers.
macro_rules! call {
    ($name:ident($($instance:tt)+), $($slice:ident),+) => {
        unsafe { $name($($instance)+, $($slice.0, $slice.1),+) }
    };
}

pub fn write_formula(instance: &[u8], horizon: u64, words: &mut [i32]) -> Answer {
    let (bytes, words) = (instance.as_ptr(), (words.as_mut_ptr(), words.len()));
    call!(
        runglaet_write_formula(bytes, instance.len(), horizon),
        words
    )
}

pub fn clause(instance: &[u8], horizon: u64, number: u64, words: &mut [i32]) -> Answer {
    let (bytes, words) = (instance.as_ptr(), (words.as_mut_ptr(), words.len()));
    call!(
        runglaet_clause(bytes, instance.len(), horizon, number),
        words
    )
}

pub fn check_plan(instance: &[u8], horizon: u64, plan: &[u8]) -> Answer {
    let (bytes, plan) = (instance.as_ptr(), (plan.as_ptr(), plan.len()));
    call!(runglaet_check_plan(bytes, instance.len(), horizon), plan)
}

pub fn decode(instance: &[u8], horizon: u64, entries: &[i32], plan: &mut [u8]) -> Answer {
    let (bytes, entries) = (instance.as_ptr(), (entries.as_ptr(), entries.len()));
    let plan = (plan.as_mut_ptr(), plan.len());
    call!(
        runglaet_decode(bytes, instance.len(), horizon),
        entries,
        plan
    )
}

pub fn encode(instance: &[u8], horizon: u64, plan: &[u8], entries: &mut [i32]) -> Answer {
    let (bytes, plan) = (instance.as_ptr(), (plan.as_ptr(), plan.len()));
    let entries = (entries.as_mut_ptr(), entries.len());
    call!(
        runglaet_encode(bytes, instance.len(), horizon),
        plan,
        entries
    )
}

pub fn read_valuation(instance: &[u8], horizon: u64, text: &[u8], entries: &mut [i32]) -> Answer {
    let (bytes, text) = (instance.as_ptr(), (text.as_ptr(), text.len()));
    let entries = (entries.as_mut_ptr(), entries.len());
    call!(
        runglaet_read_valuation(bytes, instance.len(), horizon),
        text,
        entries
    )
}

pub fn write_pruned(instance: &[u8], horizon: u64, words: &mut [i32]) -> Answer {
    let (bytes, words) = (instance.as_ptr(), (words.as_mut_ptr(), words.len()));
    call!(runglaet_write_pruned(bytes, instance.len(), horizon), words)
}

pub fn formula_size(instance: &[u8], horizon: u64) -> Size {
    unsafe { runglaet_formula_size(instance.as_ptr(), instance.len(), horizon) }
}

pub fn pruned_size(instance: &[u8], horizon: u64) -> Size {
    unsafe { runglaet_pruned_size(instance.as_ptr(), instance.len(), horizon) }
}
