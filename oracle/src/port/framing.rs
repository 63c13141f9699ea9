//! The ported preflight.

use super::functions::{
    netflow_preflight_ipfix_fixed, netflow_preflight_ipfix_variable, netflow_preflight_v9_fixed,
};
use crate::framing::case::{Case, Reading};

/// Answers the number; the cost is written when that is 0.
pub fn preflight(case: &Case, cost: &mut [u64; 3]) -> u32 {
    let function = match case.reading {
        Reading::V9Fixed => netflow_preflight_v9_fixed,
        Reading::IpfixFixed => netflow_preflight_ipfix_fixed,
        Reading::IpfixVariable => netflow_preflight_ipfix_variable,
    };
    // SAFETY: both slices live through the call and come with their lengths; the cost has the
    // three words that the function writes.
    unsafe {
        function(
            case.body.as_ptr(),
            case.body.len(),
            case.widths.as_ptr(),
            case.widths.len(),
            case.max_records as usize,
            cost,
        )
    }
}
