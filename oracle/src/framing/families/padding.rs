//! Padding of every length up to past the least size, with zero and nonzero bytes.

use super::LARGE;
use crate::framing::bodies::{Prefix, content, push_record};
use crate::framing::case::Reading;
use crate::framing::case_list::CaseList;
use crate::numbers::VARIABLE;

const FIXED: [&[u16]; 4] = [&[2], &[4], &[1, 4], &[3, 0, 6]];
const WITH_VARIABLE: [&[u16]; 4] = [&[VARIABLE], &[VARIABLE, 2], &[4, VARIABLE], &[VARIABLE, 8, 1]];

const FILLS: [u8; 3] = [0, 7, 255];

pub fn add(list: &mut CaseList) {
    for widths in FIXED {
        for reading in Reading::ALL {
            let size = reading.least_size(widths);
            for records in 1..=2 {
                add_padded(list, reading, widths, &content(records * size));
            }
        }
    }
    for widths in WITH_VARIABLE {
        let mut body = Vec::new();
        push_record(&mut body, widths, &[Prefix::Short(2)]);
        add_padded(list, Reading::IpfixVariable, widths, &body);
        push_record(&mut body, widths, &[Prefix::Long(1)]);
        add_padded(list, Reading::IpfixVariable, widths, &body);
    }
}

fn add_padded(list: &mut CaseList, reading: Reading, widths: &[u16], body: &[u8]) {
    let least = reading.least_size(widths);
    for fill in FILLS {
        let mut padded = body.to_vec();
        for length in 1..=least + 2 {
            padded.push(fill);
            list.add(reading, LARGE[length % 2], widths, &padded);
        }
    }
}
