//! Framing and decoded cost of one body. The original has this in `output_budget.rs`.

use crate::ffi::{self, Reading};

/// Which padding a body may end with. The original has it in `wire.rs`.
#[derive(Debug, Clone, Copy, PartialEq, Eq)]
pub enum RecordBodyKind {
    /// Up to three bytes, fewer than a record has.
    NetFlowV9,
    /// Fewer bytes than a record has at least.
    Ipfix,
}

/// NetFlow v9 limits alignment padding to three bytes.
const LONGEST_V9_PADDING: usize = 3;

/// No template has more fields, see [`measure_fixed_output`].
const MOST_WIDTHS: usize = 65_535;

/// Exact framing and decoded-cost result for one queued body.
#[derive(Debug, Clone, Copy, PartialEq, Eq)]
pub struct PendingOutputPreflight {
    /// Records × fields.
    pub field_values: usize,
    /// The bytes of all values, without the prefixes that give a length.
    pub field_payload_bytes: usize,
    /// The padding after the last record.
    pub remainder_len: usize,
}

/// Measures a body of fixed-width records. `None` where its framing is not valid.
///
/// # Unlike the original
/// `None` (number 12) for a body over 65,531 bytes and for more than 65,535 fields: no flowset
/// holds such a body, and no template has so many fields. The widths are collected in a `Vec`
/// first, where the original allocates nothing.
pub fn measure_fixed_output<T>(
    input: &[u8],
    fields: &[T],
    max_records: usize,
    width: impl Fn(&T) -> u16,
    body_kind: RecordBodyKind,
) -> Option<PendingOutputPreflight> {
    let widths = fields.iter().map(width);
    measure_fixed_widths(input, fields.len(), widths, max_records, body_kind)
}

/// [`measure_fixed_output`] of widths that come one by one. `field_count` is how many values a
/// record counts, whatever the number of widths.
pub fn measure_fixed_widths(
    input: &[u8],
    field_count: usize,
    widths: impl IntoIterator<Item = u16>,
    max_records: usize,
    body_kind: RecordBodyKind,
) -> Option<PendingOutputPreflight> {
    let reading = match body_kind {
        RecordBodyKind::NetFlowV9 => Reading::V9Fixed,
        RecordBodyKind::Ipfix => Reading::IpfixFixed,
    };
    let widths = collected(widths);
    let measured = measure(reading, input, &widths, max_records)?;
    if field_count == widths.len() {
        return Some(measured);
    }
    if field_count == 0 {
        return None;
    }
    let records = measured.field_values / widths.len();
    Some(PendingOutputPreflight { field_values: records.checked_mul(field_count)?, ..measured })
}

/// Measures a body of records in which a field of width 65,535 says its length itself. `None`
/// where its framing is not valid.
///
/// # Unlike the original
/// As in [`measure_fixed_output`].
pub fn measure_variable_output<T>(
    input: &[u8],
    fields: &[T],
    max_records: usize,
    width: impl Fn(&T) -> u16,
    body_kind: RecordBodyKind,
) -> Option<PendingOutputPreflight> {
    let widths = collected(fields.iter().map(width));
    let measured = measure(Reading::IpfixVariable, input, &widths, max_records)?;
    // The original takes v9 here too, where no record is of variable length.
    let is_padding =
        body_kind == RecordBodyKind::Ipfix || measured.remainder_len <= LONGEST_V9_PADDING;
    is_padding.then_some(measured)
}

/// One width more than is measured is enough to be refused.
fn collected(widths: impl IntoIterator<Item = u16>) -> Vec<u16> {
    widths.into_iter().take(MOST_WIDTHS + 1).collect()
}

fn measure(
    reading: Reading,
    input: &[u8],
    widths: &[u16],
    max_records: usize,
) -> Option<PendingOutputPreflight> {
    let [values, payload, remainder] = ffi::preflight(reading, input, widths, max_records).ok()?;
    Some(PendingOutputPreflight {
        field_values: values as usize,
        field_payload_bytes: payload as usize,
        remainder_len: remainder as usize,
    })
}
