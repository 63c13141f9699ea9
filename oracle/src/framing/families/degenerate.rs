//! No widths, zero widths, 65,535 in each reading, empty and tiny bodies, full rows.

use super::LARGE;
use crate::framing::bodies::content;
use crate::framing::case::Reading;
use crate::framing::case_list::{CaseList, ROW_BODY, ROW_WIDTHS};
use crate::numbers::VARIABLE;

const LISTS: [&[u16]; 17] = [
    &[],
    &[0],
    &[0, 0],
    &[0, 0, 0],
    &[0; ROW_WIDTHS],
    &[1],
    &[0, 1],
    &[VARIABLE],
    &[VARIABLE, VARIABLE],
    &[0, VARIABLE],
    &[VARIABLE, 0],
    &[VARIABLE, 1],
    &[1, VARIABLE],
    &[65_534],
    &[65_534, 1],
    &[32_768, 32_768],
    &[VARIABLE; ROW_WIDTHS],
];

const BODIES: [&[u8]; 9] = [
    &[],
    &[0],
    &[1],
    &[255],
    &[0, 0],
    &[1, 5],
    &[255, 0, 0],
    &[1, 2, 0, 1, 3],
    &[255, 255, 255, 1],
];

pub fn add(list: &mut CaseList) {
    for reading in Reading::ALL {
        for widths in LISTS {
            for (at, body) in BODIES.iter().enumerate() {
                let limit = if at % 3 == 2 { 1 } else { LARGE[at % 3] };
                list.add(reading, limit, widths, body);
            }
        }
        add_full_rows(list, reading);
    }
}

/// As many widths or as many body bytes as a row can have.
fn add_full_rows(list: &mut CaseList, reading: Reading) {
    let zeros = [0; ROW_BODY];
    for length in [ROW_WIDTHS - 1, ROW_WIDTHS, ROW_WIDTHS + 1, 2 * ROW_WIDTHS + 3] {
        list.add(reading, u64::MAX, &[1; ROW_WIDTHS], &zeros[..length]);
        list.add(reading, u64::MAX, &[VARIABLE; ROW_WIDTHS], &zeros[..length]);
    }
    for widths in [&[1][..], &[2, 2], &[1023], &[1024], &[1025], &[VARIABLE], &[16; 64]] {
        list.add(reading, u64::MAX, widths, &zeros);
        list.add(reading, 1023, widths, &content(ROW_BODY - 1));
    }
}
