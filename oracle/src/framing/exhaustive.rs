//! Every small case: short bodies and width lists over the values where something changes.

use super::case::{Case, Reading};

const BYTES: [u8; 6] = [0, 1, 2, 3, 254, 255];
const LONGEST_BODY: usize = 5;
const WIDTHS: [u16; 4] = [0, 1, 2, 65_535];
const LONGEST_LIST: usize = 3;
const LIMITS: [u64; 3] = [1, 2, 3];

pub fn for_each_case(mut visit: impl FnMut(&Case)) {
    let bodies = sequences(&BYTES, LONGEST_BODY);
    for widths in sequences(&WIDTHS, LONGEST_LIST) {
        for body in &bodies {
            let mut case = Case {
                reading: Reading::V9Fixed,
                max_records: 0,
                widths: widths.clone(),
                body: body.clone(),
            };
            for reading in Reading::ALL {
                for limit in LIMITS {
                    case.reading = reading;
                    case.max_records = limit;
                    visit(&case);
                }
            }
        }
    }
}

/// All sequences of up to `longest` values, the shorter ones first.
fn sequences<T: Copy>(values: &[T], longest: usize) -> Vec<Vec<T>> {
    let mut all: Vec<Vec<T>> = vec![Vec::new()];
    let mut start = 0;
    for _ in 0..longest {
        let end = all.len();
        for at in start..end {
            for &value in values {
                let longer = [all[at].as_slice(), &[value]].concat();
                all.push(longer);
            }
        }
        start = end;
    }
    all
}
