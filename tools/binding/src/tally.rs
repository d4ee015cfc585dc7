//! The plan check, counted in a record.

use crate::Answer;

/// A record of plans that were checked; `Tally::default()` is the empty one. The library takes one that holds anything.
#[repr(C)]
#[derive(Debug, Clone, Copy, PartialEq, Eq)]
pub struct Tally {
    /// How many plans passed.
    pub passed: u64,
    /// How many were refused under each number.
    pub refused: [u64; 36],
    /// The sum of the costs of those that passed.
    pub sum: u64,
    /// The least of these costs, 0 while no plan has passed.
    pub least: u64,
    /// The greatest of these costs, 0 while no plan has passed.
    pub greatest: u64,
}

impl Default for Tally {
    fn default() -> Tally {
        Tally {
            passed: 0,
            refused: [0; 36],
            sum: 0,
            least: 0,
            greatest: 0,
        }
    }
}

extern "C" {
    fn runglaet_tally_plan(
        instance: *const u8,
        instance_len: usize,
        horizon: u64,
        rule: u64,
        plan: *const u8,
        plan_len: usize,
        tally: *mut Tally,
    ) -> Answer;
}

// As in the crate's root, each pointer and length come from one slice, and the record is borrowed while the call runs.

/// Checks a plan as [`crate::check_plan`] does, and counts the answer in the record; 34 where the record takes no more.
pub fn tally_plan(
    instance: &[u8],
    horizon: u64,
    rule: u64,
    plan: &[u8],
    tally: &mut Tally,
) -> Answer {
    unsafe {
        runglaet_tally_plan(
            instance.as_ptr(),
            instance.len(),
            horizon,
            rule,
            plan.as_ptr(),
            plan.len(),
            tally,
        )
    }
}
