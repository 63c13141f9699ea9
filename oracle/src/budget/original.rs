//! The original's answer to a call, in document 01's numbers.

use super::call::{Answer, Call, Preflight, Report};
use crate::numbers::{
    DONE, FITS_LATER, INVALID, NEVER_FITS, NO_PAYLOAD, NO_RECORDS, NO_VALUES, PAYLOAD_EXCEEDED,
    VALUES_EXCEEDED,
};
use crate::variable_versions::config::ConfigError;
use crate::variable_versions::output_budget::{
    DecodedOutputBudget, DecodedOutputLimit, DecodedOutputLimits, OutputBudgetExceeded,
    PendingOutputError, PendingOutputPreflight,
};

/// The original takes the decoder's remainder as a slice, so it must be had: one byte more than
/// the longest remainder that a call names.
pub const LONGEST_REMAINDER: u64 = 65_531;
static REMAINDER: [u8; LONGEST_REMAINDER as usize + 1] = [0; LONGEST_REMAINDER as usize + 1];

pub fn answer(budget: &mut DecodedOutputBudget, call: &Call) -> Answer {
    match *call {
        Call::New { values, payload } => {
            *budget = DecodedOutputBudget::new(values as usize, payload as usize);
            Answer::plain(DONE)
        }
        Call::Reset => {
            budget.reset();
            Answer::plain(DONE)
        }
        Call::SetLimits { values, payload } => {
            budget.set_limits(values as usize, payload as usize);
            Answer::plain(DONE)
        }
        Call::Reserve { values, payload } => {
            reserved(budget.reserve(values as usize, payload as usize))
        }
        Call::Rollback { values, payload } => {
            budget.rollback((values as usize, payload as usize));
            Answer::plain(DONE)
        }
        Call::TakeExceeded => {
            let taken = budget.take_exceeded();
            let values = taken.map_or([0; 3], OutputBudgetExceeded::words);
            Answer { number: DONE, values }
        }
        Call::ValidateFull(preflight) => {
            validated(budget.validate_pending_full_budget(original_preflight(preflight)))
        }
        Call::ValidateRemaining(preflight) => match original_preflight(preflight) {
            Some(preflight) => validated(budget.validate_pending_remaining(preflight)),
            // The original's type does not let it be asked; document 01 turns back on none.
            None => Answer::plain(INVALID),
        },
        Call::Materialize(preflight, report) => materialize(budget, preflight, report),
        Call::Remaining => {
            let (values, payload) = budget.remaining();
            Answer { number: DONE, values: [values as u64, payload as u64, 0] }
        }
        Call::IsExceeded => {
            Answer { number: DONE, values: [u64::from(budget.is_exceeded()), 0, 0] }
        }
        Call::Limits { records, values, payload } => limits(records, values, payload),
    }
}

/// The budget's words, which the original's own queries must agree with.
pub fn state(budget: &DecodedOutputBudget) -> [u64; 7] {
    let words = budget.words();
    let [_, _, used_values, used_payload, limit, ..] = words;
    let used = (used_values as usize, used_payload as usize);
    assert_eq!((budget.used(), budget.checkpoint()), (used, used));
    assert_eq!(budget.is_exceeded(), limit != 0);
    words
}

fn original_preflight(preflight: Preflight) -> Option<PendingOutputPreflight> {
    preflight.map(PendingOutputPreflight::from_words)
}

fn reserved(result: Result<(), OutputBudgetExceeded>) -> Answer {
    let Err(exceeded) = result else {
        return Answer::plain(DONE);
    };
    let number = match exceeded.limit {
        DecodedOutputLimit::FieldValues => VALUES_EXCEEDED,
        DecodedOutputLimit::FieldPayloadBytes => PAYLOAD_EXCEEDED,
    };
    Answer { number, values: exceeded.words() }
}

fn validated<T>(result: Result<T, PendingOutputError>) -> Answer {
    Answer::plain(result.err().map_or(DONE, pending_number))
}

fn pending_number(error: PendingOutputError) -> u32 {
    match error {
        PendingOutputError::Invalid => INVALID,
        PendingOutputError::NeverFits => NEVER_FITS,
        PendingOutputError::TemporarilyDoesNotFit => FITS_LATER,
    }
}

/// The closure is the decoder: it leaves its cost in the scratch budget and answers what of the
/// body is left over. `rollback` sets that cost even where `reserve` would refuse it.
fn materialize(budget: &mut DecodedOutputBudget, preflight: Preflight, report: Report) -> Answer {
    let reported = report.words(preflight.unwrap_or_default());
    let result = budget.materialize_pending(original_preflight(preflight), |scratch| {
        let [values, payload, remainder] = reported.ok_or(())?;
        scratch.rollback((values as usize, payload as usize));
        Ok::<_, ()>((&REMAINDER[..remainder as usize], ()))
    });
    match result {
        Ok(((), remainder)) => Answer { number: DONE, values: [remainder as u64, 0, 0] },
        Err(error) => Answer::plain(pending_number(error)),
    }
}

fn limits(records: u64, values: u64, payload: u64) -> Answer {
    let result = DecodedOutputLimits::new(records as usize, values as usize, payload as usize);
    Answer::plain(match result {
        Ok(_) => DONE,
        Err(ConfigError::InvalidRecordsPerFlowset(_)) => NO_RECORDS,
        Err(ConfigError::InvalidDecodedFieldValueLimit(_)) => NO_VALUES,
        Err(ConfigError::InvalidDecodedFieldPayloadByteLimit(_)) => NO_PAYLOAD,
        Err(other) => unreachable!("no limit of the output: {other:?}"),
    })
}

#[cfg(test)]
mod tests {
    use super::*;

    /// Document 01's case.
    #[test]
    fn reserve_above_the_values() {
        let mut budget = DecodedOutputBudget::new(10, 100);
        answer(&mut budget, &Call::Reserve { values: 8, payload: 0 });
        let refused = answer(&mut budget, &Call::Reserve { values: 3, payload: 500 });
        assert_eq!(refused, Answer { number: VALUES_EXCEEDED, values: [1, 10, 11] });
        assert_eq!(budget.words(), [10, 100, 8, 0, 1, 10, 11]);
    }
}
