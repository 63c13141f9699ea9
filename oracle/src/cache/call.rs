//! One call on a cache, and its answer.

use super::limits::{Areas, Limits};
use crate::numbers::DONE;

#[derive(Debug, Clone, Copy, PartialEq, Eq)]
pub enum Call {
    Open { limits: Limits, areas: Areas },
    Offer { id: u16, length: u64, clock: u64 },
    Drain { id: u16, clock: u64 },
    PutBack { id: u16, n: u64 },
    Resize(Limits),
    Clear,
    WouldAccept { id: u16, length: u64, clock: u64 },
    ReadHandedOut { number: u64 },
}

impl Call {
    pub const NAMES: [&str; 8] = [
        "open",
        "offer",
        "drain",
        "put back",
        "resize",
        "clear",
        "would_accept",
        "read handed-out",
    ];

    /// The number of the call in the rows, and its arguments.
    pub fn row_words(&self) -> Vec<u64> {
        match *self {
            Self::Open { limits, areas } => {
                let lent = [areas.bytes, areas.words];
                [&[0], &limits.row_words()[..], &lent[..]].concat()
            }
            Self::Offer { id, length, clock } => vec![1, id.into(), length, clock],
            Self::Drain { id, clock } => vec![2, id.into(), clock],
            Self::PutBack { id, n } => vec![3, id.into(), n],
            Self::Resize(limits) => [&[4], &limits.row_words()[..]].concat(),
            Self::Clear => vec![5],
            Self::WouldAccept { id, length, clock } => vec![6, id.into(), length, clock],
            Self::ReadHandedOut { number } => vec![7, number],
        }
    }
}

/// Document 01's number, and a value beside 0 where the call has one: bodies handed out or
/// dropped, yes (1) or no (0), a length.
#[derive(Debug, Clone, Copy, PartialEq, Eq)]
pub struct Answer {
    pub number: u32,
    pub value: u64,
}

impl Answer {
    pub fn number(number: u32) -> Self {
        Self { number, value: 0 }
    }

    pub fn value(value: u64) -> Self {
        Self { number: DONE, value }
    }
}
