//! Cumulative decoded-output accounting.

use crate::config::{ConfigError, DEFAULT_MAX_RECORDS_PER_FLOWSET};
use crate::ffi::{self, BudgetWords};
use crate::numbers::{FITS_LATER, NEVER_FITS, NO_RECORDS, NO_VALUES, VALUES_EXCEEDED};
use crate::preflight::PendingOutputPreflight;
use std::fmt;

/// Default maximum number of decoded field values returned by one message.
pub const DEFAULT_MAX_DECODED_FIELD_VALUES_PER_MESSAGE: usize = 65_536;

/// Default maximum number of decoded field payload bytes returned by one message.
pub const DEFAULT_MAX_DECODED_FIELD_PAYLOAD_BYTES_PER_MESSAGE: usize = 4 * 1024 * 1024;

/// The cumulative decoded-output limit that rejected a message.
///
/// # Unlike the original
/// Does not derive `serde::Serialize`: this crate has no dependencies.
#[derive(Debug, Clone, Copy, PartialEq, Eq)]
pub enum DecodedOutputLimit {
    /// Number of materialized field values.
    FieldValues,
    /// Sum of materialized field content bytes.
    FieldPayloadBytes,
}

/// Finite limits for one-body parsing.
#[derive(Debug, Clone, Copy, PartialEq, Eq)]
pub struct DecodedOutputLimits {
    max_records: usize,
    max_field_values: usize,
    max_field_payload_bytes: usize,
}

impl DecodedOutputLimits {
    /// Validate and create a bounded one-body parsing policy. All three values must be greater
    /// than zero (numbers 9, 10 and 11).
    pub fn new(
        max_records: usize,
        max_field_values: usize,
        max_field_payload_bytes: usize,
    ) -> Result<Self, ConfigError> {
        ffi::limits(max_records as u64, max_field_values as u64, max_field_payload_bytes as u64)
            .map_err(|number| match number {
                NO_RECORDS => ConfigError::InvalidRecordsPerFlowset(0),
                NO_VALUES => ConfigError::InvalidDecodedFieldValueLimit(0),
                _ => ConfigError::InvalidDecodedFieldPayloadByteLimit(0),
            })?;
        Ok(Self { max_records, max_field_values, max_field_payload_bytes })
    }

    /// The most records of one body.
    pub fn max_records(self) -> usize {
        self.max_records
    }

    /// An unused budget with the two limits of the output.
    pub fn budget(self) -> DecodedOutputBudget {
        DecodedOutputBudget::new(self.max_field_values, self.max_field_payload_bytes)
    }
}

impl Default for DecodedOutputLimits {
    fn default() -> Self {
        Self {
            max_records: DEFAULT_MAX_RECORDS_PER_FLOWSET,
            max_field_values: DEFAULT_MAX_DECODED_FIELD_VALUES_PER_MESSAGE,
            max_field_payload_bytes: DEFAULT_MAX_DECODED_FIELD_PAYLOAD_BYTES_PER_MESSAGE,
        }
    }
}

/// A limit that would be passed, with what it is and the sum that would pass it
/// (`usize::MAX` where the sum overflows).
#[derive(Debug, Clone, Copy, PartialEq, Eq)]
pub struct OutputBudgetExceeded {
    /// Which limit it is.
    pub limit: DecodedOutputLimit,
    /// What it is set to.
    pub configured: usize,
    /// The use with what was to be added.
    pub attempted: usize,
}

impl OutputBudgetExceeded {
    /// None where the first word is 0.
    fn of_words([which, configured, attempted]: [u64; 3]) -> Option<Self> {
        let limit = match which {
            0 => return None,
            1 => DecodedOutputLimit::FieldValues,
            _ => DecodedOutputLimit::FieldPayloadBytes,
        };
        Some(Self { limit, configured: configured as usize, attempted: attempted as usize })
    }
}

/// Why a queued body is not decoded.
#[derive(Debug, Clone, Copy, PartialEq, Eq)]
pub enum PendingOutputError {
    /// Number 22: above what remains.
    TemporarilyDoesNotFit,
    /// Number 8: above the whole budget.
    NeverFits,
    /// Number 7: no valid framing, or decoded otherwise than the preflight says.
    Invalid,
}

impl PendingOutputError {
    fn of_number(number: u32) -> Self {
        match number {
            FITS_LATER => Self::TemporarilyDoesNotFit,
            NEVER_FITS => Self::NeverFits,
            _ => Self::Invalid,
        }
    }
}

/// What became of a queued body when its template had come.
#[derive(Debug, Clone, Copy, PartialEq, Eq)]
pub enum PendingReplayOutcome {
    /// It was decoded.
    Replayed,
    /// It is to wait for another message.
    TemporarilyDoesNotFit,
    /// It never fits, or is not valid.
    Failed,
}

impl From<PendingOutputError> for PendingReplayOutcome {
    fn from(error: PendingOutputError) -> Self {
        match error {
            PendingOutputError::TemporarilyDoesNotFit => Self::TemporarilyDoesNotFit,
            PendingOutputError::NeverFits | PendingOutputError::Invalid => Self::Failed,
        }
    }
}

impl PendingOutputPreflight {
    fn words(self) -> [u64; 3] {
        [self.field_values, self.field_payload_bytes, self.remainder_len].map(|n| n as u64)
    }
}

/// Per-message accounting state.
#[derive(Clone)]
pub struct DecodedOutputBudget(BudgetWords);

impl DecodedOutputBudget {
    /// Takes any limits, 0 included.
    pub fn new(max_values: usize, max_payload_bytes: usize) -> Self {
        Self(BudgetWords::new(max_values as u64, max_payload_bytes as u64))
    }

    /// Nothing used and nothing recorded.
    pub fn reset(&mut self) {
        self.0.reset();
    }

    /// Other limits, any, with nothing used and nothing recorded.
    pub fn set_limits(&mut self, max_values: usize, max_payload_bytes: usize) {
        self.0.set_limits(max_values as u64, max_payload_bytes as u64);
    }

    /// The use, to roll back to.
    pub fn checkpoint(&self) -> (usize, usize) {
        self.used()
    }

    /// Sets the use back to a checkpoint, and forgets a recorded excess.
    ///
    /// # Unlike the original
    /// A checkpoint above the use in either count changes nothing (number 26), where the original
    /// raises the use. See [`try_rollback`](Self::try_rollback).
    pub fn rollback(&mut self, checkpoint: (usize, usize)) {
        // Which of both it was, the original's signature does not say.
        let _ = self.try_rollback(checkpoint);
    }

    /// [`rollback`](Self::rollback) that says whether it did so; the error has the use.
    pub fn try_rollback(
        &mut self,
        (values, payload): (usize, usize),
    ) -> Result<(), (usize, usize)> {
        let answer = self.0.rollback(values as u64, payload as u64);
        answer.map_err(|_| self.used())
    }

    /// Adds to both counts in use, or to neither (numbers 23 and 24); the first excess since
    /// opening or rollback stays recorded.
    pub fn reserve(
        &mut self,
        values: usize,
        payload_bytes: usize,
    ) -> Result<(), OutputBudgetExceeded> {
        let answer = self.0.reserve(values as u64, payload_bytes as u64);
        answer.map_err(|(number, [_, configured, attempted])| OutputBudgetExceeded {
            limit: match number {
                VALUES_EXCEEDED => DecodedOutputLimit::FieldValues,
                _ => DecodedOutputLimit::FieldPayloadBytes,
            },
            configured: configured as usize,
            attempted: attempted as usize,
        })
    }

    /// The recorded excess, which is recorded no longer.
    pub fn take_exceeded(&mut self) -> Option<OutputBudgetExceeded> {
        OutputBudgetExceeded::of_words(self.0.take_exceeded())
    }

    /// Whether an excess is recorded.
    pub fn is_exceeded(&self) -> bool {
        self.0.is_exceeded()
    }

    /// Field values and payload bytes in use.
    pub fn used(&self) -> (usize, usize) {
        let [_, _, values, payload, ..] = self.0.0;
        (values as usize, payload as usize)
    }

    /// Field values and payload bytes up to the limits.
    pub fn remaining(&self) -> (usize, usize) {
        let [values, payload] = self.0.remaining();
        (values as usize, payload as usize)
    }

    /// Materializes one queued body only when its preflight fits the current message, then
    /// commits its actual decoded cost.
    ///
    /// `parse` is given an unused budget with the same limits, and is not called where the
    /// preflight does not fit. What it reserved there and the length of what it leaves of the body
    /// must be the preflight's.
    pub fn materialize_pending<'a, T, E>(
        &mut self,
        preflight: Option<PendingOutputPreflight>,
        parse: impl FnOnce(&mut DecodedOutputBudget) -> Result<(&'a [u8], T), E>,
    ) -> Result<(T, usize), PendingOutputError> {
        let fitting = self.validate_pending_full_budget(preflight)?;
        self.validate_pending_remaining(fitting)?;

        let mut scratch = self.clone();
        scratch.reset();
        let parsed = parse(&mut scratch).ok();
        let (values, payload) = scratch.used();
        let report = parsed
            .as_ref()
            .map(|(remaining, _)| [values, payload, remaining.len()].map(|figure| figure as u64));
        let remainder = self
            .0
            .materialize_pending(Some(fitting.words()), report)
            .map_err(PendingOutputError::of_number)?;
        let (_, value) = parsed.ok_or(PendingOutputError::Invalid)?;
        Ok((value, remainder as usize))
    }

    /// Whether a body can ever fit.
    pub fn validate_pending_full_budget(
        &self,
        preflight: Option<PendingOutputPreflight>,
    ) -> Result<PendingOutputPreflight, PendingOutputError> {
        let words = preflight.map(PendingOutputPreflight::words);
        self.0.validate_pending_full_budget(words).map_err(PendingOutputError::of_number)?;
        preflight.ok_or(PendingOutputError::Invalid)
    }

    /// Whether a body fits what remains.
    ///
    /// # Unlike the original
    /// A cost above the whole budget is told as [`PendingOutputError::NeverFits`] (number 8),
    /// where the original says `TemporarilyDoesNotFit`.
    pub fn validate_pending_remaining(
        &self,
        preflight: PendingOutputPreflight,
    ) -> Result<(), PendingOutputError> {
        let answer = self.0.validate_pending_remaining(Some(preflight.words()));
        answer.map_err(PendingOutputError::of_number)
    }
}

impl fmt::Debug for DecodedOutputBudget {
    fn fmt(&self, f: &mut fmt::Formatter<'_>) -> fmt::Result {
        let [max_values, max_payload_bytes, used_values, used_payload_bytes, excess @ ..] =
            self.0.0;
        f.debug_struct("DecodedOutputBudget")
            .field("max_values", &max_values)
            .field("max_payload_bytes", &max_payload_bytes)
            .field("used_values", &used_values)
            .field("used_payload_bytes", &used_payload_bytes)
            .field("exceeded", &OutputBudgetExceeded::of_words(excess))
            .finish()
    }
}
