//! The preflight.

use super::functions::{
    netflow_preflight_ipfix_fixed, netflow_preflight_ipfix_variable, netflow_preflight_v9_fixed,
};
use super::{Number, answered};

/// The readings of document 01.
#[derive(Debug, Clone, Copy)]
pub enum Reading {
    V9Fixed,
    IpfixFixed,
    IpfixVariable,
}

/// Field values, payload bytes and remainder; or 9, 12 or 7.
pub fn preflight(
    reading: Reading,
    body: &[u8],
    widths: &[u16],
    max_records: usize,
) -> Result<[u64; 3], Number> {
    let function = match reading {
        Reading::V9Fixed => netflow_preflight_v9_fixed,
        Reading::IpfixFixed => netflow_preflight_ipfix_fixed,
        Reading::IpfixVariable => netflow_preflight_ipfix_variable,
    };
    let mut cost = [0; 3];
    let (body, body_len) = (body.as_ptr(), body.len());
    let (widths, widths_len) = (widths.as_ptr(), widths.len());
    // SAFETY: see the head of `ffi`; the cost has its three words.
    let number = unsafe { function(body, body_len, widths, widths_len, max_records, &mut cost) };
    answered(number, cost)
}
