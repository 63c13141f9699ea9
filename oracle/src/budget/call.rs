//! One call on a budget, and its answer.

use crate::numbers::{DONE, INVALID};

/// A preflight's values, payload and remainder, or none.
pub type Preflight = Option<[u64; 3]>;

#[derive(Debug, Clone, Copy)]
pub enum Call {
    New { values: u64, payload: u64 },
    Reset,
    SetLimits { values: u64, payload: u64 },
    Reserve { values: u64, payload: u64 },
    Rollback { values: u64, payload: u64 },
    TakeExceeded,
    ValidateFull(Preflight),
    ValidateRemaining(Preflight),
    Materialize(Preflight, Report),
    Remaining,
    IsExceeded,
    Limits { records: u64, values: u64, payload: u64 },
}

/// What the decoder says of the body, beside the preflight's cost and remainder. The numbers
/// are those of the recorded rows.
#[derive(Debug, Clone, Copy, PartialEq, Eq)]
pub enum Report {
    Failure = 0,
    Same = 1,
    MoreValues = 2,
    MorePayload = 3,
    MoreRemainder = 4,
    FewerValues = 5,
    FewerPayload = 6,
    LessRemainder = 7,
}

impl Report {
    pub const ALL: [Self; 8] = [
        Self::Failure,
        Self::Same,
        Self::MoreValues,
        Self::MorePayload,
        Self::MoreRemainder,
        Self::FewerValues,
        Self::FewerPayload,
        Self::LessRemainder,
    ];

    /// The three figures of a success that differs by one where the report says so. None for a
    /// failure, and where there is no such figure.
    pub fn words(self, measured: [u64; 3]) -> Option<[u64; 3]> {
        let mut words = measured;
        match self {
            Self::Failure => return None,
            Self::Same => {}
            Self::MoreValues => words[0] = words[0].checked_add(1)?,
            Self::MorePayload => words[1] = words[1].checked_add(1)?,
            Self::MoreRemainder => words[2] = words[2].checked_add(1)?,
            Self::FewerValues => words[0] = words[0].checked_sub(1)?,
            Self::FewerPayload => words[1] = words[1].checked_sub(1)?,
            Self::LessRemainder => words[2] = words[2].checked_sub(1)?,
        }
        Some(words)
    }
}

impl Call {
    /// The number of the call in the recorded rows, and its seven arguments, unused ones 0.
    pub fn row_words(&self) -> [u64; 8] {
        match *self {
            Self::New { values, payload } => [0, values, payload, 0, 0, 0, 0, 0],
            Self::Reset => [1, 0, 0, 0, 0, 0, 0, 0],
            Self::SetLimits { values, payload } => [2, values, payload, 0, 0, 0, 0, 0],
            Self::Reserve { values, payload } => [3, values, payload, 0, 0, 0, 0, 0],
            Self::Rollback { values, payload } => [4, values, payload, 0, 0, 0, 0, 0],
            Self::TakeExceeded => [5, 0, 0, 0, 0, 0, 0, 0],
            Self::ValidateFull(preflight) => preflight_words(6, preflight, 0),
            Self::ValidateRemaining(preflight) => preflight_words(7, preflight, 0),
            Self::Materialize(preflight, report) => preflight_words(8, preflight, report as u64),
            Self::Remaining => [9, 0, 0, 0, 0, 0, 0, 0],
            Self::IsExceeded => [10, 0, 0, 0, 0, 0, 0, 0],
            Self::Limits { records, values, payload } => [11, records, values, payload, 0, 0, 0, 0],
        }
    }
}

fn preflight_words(call: u64, preflight: Preflight, report: u64) -> [u64; 8] {
    let [values, payload, remainder] = preflight.unwrap_or_default();
    let number = if preflight.is_some() { DONE } else { INVALID };
    [call, u64::from(number), values, payload, remainder, report, 0, 0]
}

/// Document 01's number, and up to three values beside it, unused ones 0.
#[derive(Debug, Clone, Copy, PartialEq, Eq)]
pub struct Answer {
    pub number: u32,
    pub values: [u64; 3],
}

impl Answer {
    pub fn plain(number: u32) -> Self {
        Self { number, values: [0; 3] }
    }
}
