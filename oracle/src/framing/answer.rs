//! The original's answer to a case, in document 01's numbers.

use super::case::{Case, Reading};
use crate::numbers::{DONE, INVALID};
use crate::variable_versions::output_budget::{measure_fixed_output, measure_variable_output};
use crate::variable_versions::wire::RecordBodyKind;

#[derive(Debug, Clone, Copy, PartialEq, Eq)]
pub struct Answer {
    pub number: u32,
    /// Values, payload, remainder; zeros beside a refusal.
    pub cost: [u64; 3],
}

impl Answer {
    pub fn refused(number: u32) -> Self {
        Self { number, cost: [0; 3] }
    }

    /// `number values payload remainder`
    pub fn row(&self) -> String {
        let [values, payload, remainder] = self.cost;
        format!("{} {values} {payload} {remainder}", self.number)
    }
}

pub fn original_answer(case: &Case) -> Answer {
    let body = case.body.as_slice();
    let widths = case.widths.as_slice();
    let max_records = case.max_records as usize;
    let width = |width: &u16| *width;
    let measured = match case.reading {
        Reading::V9Fixed => {
            measure_fixed_output(body, widths, max_records, width, RecordBodyKind::NetFlowV9)
        }
        Reading::IpfixFixed => {
            measure_fixed_output(body, widths, max_records, width, RecordBodyKind::Ipfix)
        }
        Reading::IpfixVariable => {
            measure_variable_output(body, widths, max_records, width, RecordBodyKind::Ipfix)
        }
    };
    match measured {
        Some(preflight) => Answer { number: DONE, cost: preflight.words() },
        None => Answer::refused(INVALID),
    }
}
