//! Cumulative decoded-output accounting shared by NetFlow v9 and IPFIX: that of netflow_pending.
//!
//! `scan_variable_record` is not here: netflow_pending measures whole bodies. Where a parser calls
//! it, the original's stays.

use super::wire::RecordBodyKind;
use std::ops::{Deref, DerefMut};

pub use netflow_pending::{
    DEFAULT_MAX_DECODED_FIELD_PAYLOAD_BYTES_PER_MESSAGE,
    DEFAULT_MAX_DECODED_FIELD_VALUES_PER_MESSAGE,
};
#[allow(unused_imports)]
pub(crate) use netflow_pending::{
    PendingOutputError, PendingOutputPreflight, PendingReplayOutcome,
};

/// The cumulative decoded-output limit that rejected a message. As in the original: that of
/// netflow_pending cannot be serialized.
#[non_exhaustive]
#[derive(Debug, Clone, Copy, PartialEq, Eq, serde::Serialize)]
pub enum DecodedOutputLimit {
    /// Number of materialized field values.
    FieldValues,
    /// Sum of materialized field content bytes.
    FieldPayloadBytes,
}

/// Finite limits for advanced one-body `Data` and `OptionsData` parsing.
///
/// Use [`DecodedOutputLimits::new`] to override the same finite defaults used
/// by the stateful parser. All three values must be greater than zero.
#[derive(Debug, Clone, Copy, PartialEq, Eq, Default)]
pub struct DecodedOutputLimits(netflow_pending::DecodedOutputLimits);

impl DecodedOutputLimits {
    /// Validate and create a bounded one-body parsing policy.
    pub fn new(
        max_records: usize,
        max_field_values: usize,
        max_field_payload_bytes: usize,
    ) -> Result<Self, crate::ConfigError> {
        Ok(Self(netflow_pending::DecodedOutputLimits::new(
            max_records,
            max_field_values,
            max_field_payload_bytes,
        )?))
    }

    pub(crate) fn max_records(self) -> usize {
        self.0.max_records()
    }

    pub(crate) fn budget(self) -> DecodedOutputBudget {
        DecodedOutputBudget(self.0.budget())
    }
}

#[derive(Debug, Clone, Copy, PartialEq, Eq)]
pub(crate) struct OutputBudgetExceeded {
    pub(crate) limit: DecodedOutputLimit,
    pub(crate) configured: usize,
    pub(crate) attempted: usize,
}

impl From<netflow_pending::OutputBudgetExceeded> for OutputBudgetExceeded {
    fn from(exceeded: netflow_pending::OutputBudgetExceeded) -> Self {
        let limit = match exceeded.limit {
            netflow_pending::DecodedOutputLimit::FieldValues => DecodedOutputLimit::FieldValues,
            netflow_pending::DecodedOutputLimit::FieldPayloadBytes => {
                DecodedOutputLimit::FieldPayloadBytes
            }
        };
        Self { limit, configured: exceeded.configured, attempted: exceeded.attempted }
    }
}

/// Per-message accounting state. The methods that are not here are those of netflow_pending.
#[derive(Debug, Clone)]
pub(crate) struct DecodedOutputBudget(netflow_pending::DecodedOutputBudget);

impl DecodedOutputBudget {
    pub(crate) fn new(max_values: usize, max_payload_bytes: usize) -> Self {
        Self(netflow_pending::DecodedOutputBudget::new(max_values, max_payload_bytes))
    }

    pub(crate) fn reserve(
        &mut self,
        values: usize,
        payload_bytes: usize,
    ) -> Result<(), OutputBudgetExceeded> {
        Ok(self.0.reserve(values, payload_bytes)?)
    }

    pub(crate) fn take_exceeded(&mut self) -> Option<OutputBudgetExceeded> {
        self.0.take_exceeded().map(Into::into)
    }

    pub(crate) fn materialize_pending<'a, T, E>(
        &mut self,
        preflight: Option<PendingOutputPreflight>,
        parse: impl FnOnce(&mut DecodedOutputBudget) -> Result<(&'a [u8], T), E>,
    ) -> Result<(T, usize), PendingOutputError> {
        self.0.materialize_pending(preflight, |scratch| {
            let mut lent = Self(scratch.clone());
            let parsed = parse(&mut lent);
            *scratch = lent.0;
            parsed
        })
    }
}

impl Deref for DecodedOutputBudget {
    type Target = netflow_pending::DecodedOutputBudget;

    fn deref(&self) -> &Self::Target {
        &self.0
    }
}

impl DerefMut for DecodedOutputBudget {
    fn deref_mut(&mut self) -> &mut Self::Target {
        &mut self.0
    }
}

impl From<RecordBodyKind> for netflow_pending::RecordBodyKind {
    fn from(kind: RecordBodyKind) -> Self {
        match kind {
            RecordBodyKind::NetFlowV9 => Self::NetFlowV9,
            RecordBodyKind::Ipfix => Self::Ipfix,
        }
    }
}

pub(crate) fn measure_fixed_output<T>(
    input: &[u8],
    fields: &[T],
    max_records: usize,
    width: impl Fn(&T) -> u16,
    body_kind: RecordBodyKind,
) -> Option<PendingOutputPreflight> {
    netflow_pending::measure_fixed_output(input, fields, max_records, width, body_kind.into())
}

pub(crate) fn measure_fixed_widths(
    input: &[u8],
    field_count: usize,
    widths: impl IntoIterator<Item = u16>,
    max_records: usize,
    body_kind: RecordBodyKind,
) -> Option<PendingOutputPreflight> {
    let kind = body_kind.into();
    netflow_pending::measure_fixed_widths(input, field_count, widths, max_records, kind)
}

pub(crate) fn measure_variable_output<T>(
    input: &[u8],
    fields: &[T],
    max_records: usize,
    width: impl Fn(&T) -> u16,
    body_kind: RecordBodyKind,
) -> Option<PendingOutputPreflight> {
    netflow_pending::measure_variable_output(input, fields, max_records, width, body_kind.into())
}
