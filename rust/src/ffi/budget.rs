//! The budget.

use super::functions::{
    netflow_budget_is_exceeded, netflow_budget_limits, netflow_budget_materialize_pending,
    netflow_budget_new, netflow_budget_remaining, netflow_budget_reserve, netflow_budget_reset,
    netflow_budget_rollback, netflow_budget_set_limits, netflow_budget_take_exceeded,
    netflow_budget_validate_pending_full_budget, netflow_budget_validate_pending_remaining,
};
use super::{Number, answered};

/// The number of a preflight that is none: 7.
const INVALID: u32 = 7;

/// A preflight as a number and a cost.
fn preflight_words(preflight: Option<[u64; 3]>) -> (u32, [u64; 3]) {
    preflight.map_or((INVALID, [0; 3]), |cost| (0, cost))
}

/// The three limits, or 9, 10 or 11.
pub fn limits(max_records: u64, max_values: u64, max_payload: u64) -> Result<[u64; 3], Number> {
    let mut limits = [0; 3];
    // SAFETY: see the head of `ffi`.
    let number =
        unsafe { netflow_budget_limits(max_records, max_values, max_payload, &mut limits) };
    answered(number, limits)
}

/// A budget: both limits, both counts in use, and the recorded excess (0 none, 1 field values,
/// 2 payload bytes) with its configured figure and its attempted sum.
///
/// SAFETY of every call below: see the head of `ffi`; all arrays have as many words as the
/// archive's function takes.
#[derive(Debug, Clone)]
pub struct BudgetWords(pub [u64; 7]);

impl BudgetWords {
    pub fn new(max_values: u64, max_payload: u64) -> Self {
        let mut words = [0; 7];
        // SAFETY: as above.
        unsafe { netflow_budget_new(&mut words, max_values, max_payload) };
        Self(words)
    }

    pub fn reset(&mut self) {
        // SAFETY: as above.
        unsafe { netflow_budget_reset(&mut self.0) };
    }

    pub fn set_limits(&mut self, max_values: u64, max_payload: u64) {
        // SAFETY: as above.
        unsafe { netflow_budget_set_limits(&mut self.0, max_values, max_payload) };
    }

    /// Nothing; or 23 or 24 with the excess.
    pub fn reserve(&mut self, values: u64, payload: u64) -> Result<(), (Number, [u64; 3])> {
        let mut excess = [0; 3];
        // SAFETY: as above.
        let number = unsafe { netflow_budget_reserve(&mut self.0, values, payload, &mut excess) };
        answered(number, ()).map_err(|number| (number, excess))
    }

    /// Nothing, or 26.
    pub fn rollback(&mut self, values: u64, payload: u64) -> Result<(), Number> {
        // SAFETY: as above.
        answered(unsafe { netflow_budget_rollback(&mut self.0, values, payload) }, ())
    }

    pub fn remaining(&self) -> [u64; 2] {
        let mut counts = [0; 2];
        // SAFETY: as above.
        unsafe { netflow_budget_remaining(&self.0, &mut counts) };
        counts
    }

    pub fn is_exceeded(&self) -> bool {
        let mut answer = [0];
        // SAFETY: as above.
        unsafe { netflow_budget_is_exceeded(&self.0, &mut answer) };
        answer == [1]
    }

    /// The excess that was recorded, or three zeros.
    pub fn take_exceeded(&mut self) -> [u64; 3] {
        let mut excess = [0; 3];
        // SAFETY: as above.
        unsafe { netflow_budget_take_exceeded(&mut self.0, &mut excess) };
        excess
    }

    /// Nothing, or 7 or 8.
    pub fn validate_pending_full_budget(&self, preflight: Option<[u64; 3]>) -> Result<(), Number> {
        let (number, cost) = preflight_words(preflight);
        // SAFETY: as above.
        let number = unsafe { netflow_budget_validate_pending_full_budget(&self.0, number, &cost) };
        answered(number, ())
    }

    /// Nothing, or 7, 8 or 22.
    pub fn validate_pending_remaining(&self, preflight: Option<[u64; 3]>) -> Result<(), Number> {
        let (number, cost) = preflight_words(preflight);
        // SAFETY: as above.
        let number = unsafe { netflow_budget_validate_pending_remaining(&self.0, number, &cost) };
        answered(number, ())
    }

    /// The remainder's length, or 7, 8 or 22. The report is the decoder's cost and remainder, or
    /// none where it failed.
    pub fn materialize_pending(
        &mut self,
        preflight: Option<[u64; 3]>,
        report: Option<[u64; 3]>,
    ) -> Result<u64, Number> {
        let (number, cost) = preflight_words(preflight);
        let (success, reported) = report.map_or((0, [0; 3]), |reported| (1, reported));
        let mut remainder = [0];
        // SAFETY: as above.
        let number = unsafe {
            netflow_budget_materialize_pending(
                &mut self.0,
                number,
                &cost,
                success,
                &reported,
                &mut remainder,
            )
        };
        answered(number, remainder[0])
    }
}
