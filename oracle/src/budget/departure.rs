//! Where document 01 answers unlike the original.

use super::call::{Answer, Call};
use crate::numbers::{NEVER_FITS, ROLLBACK_ABOVE_USE};

/// Document 01's answer to such a call, else none. None of these calls changes the budget.
pub fn departure(state: &[u64; 7], call: &Call) -> Option<Answer> {
    let [max_values, max_payload, used_values, used_payload, ..] = *state;
    match *call {
        Call::Rollback { values, payload } if values > used_values || payload > used_payload => {
            Some(Answer::plain(ROLLBACK_ABOVE_USE))
        }
        Call::ValidateRemaining(Some([values, payload, _]))
            if values > max_values || payload > max_payload =>
        {
            Some(Answer::plain(NEVER_FITS))
        }
        _ => None,
    }
}
