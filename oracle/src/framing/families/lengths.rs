//! Body lengths around every multiple of the record size. No width is variable here, so the
//! three readings differ only in v9's three bytes.

use super::{LARGE, limits_around};
use crate::framing::bodies::content;
use crate::framing::case::Reading;
use crate::framing::case_list::CaseList;
use std::collections::BTreeSet;

const LISTS: [&[u16]; 11] = [
    &[1],
    &[2],
    &[3],
    &[4],
    &[5],
    &[4, 4],
    &[0, 4],
    &[6, 0],
    &[1, 2, 1],
    &[0, 0, 7, 0],
    &[2, 8, 1],
];

const AROUND: usize = 4;
const RECORDS: usize = 4;

pub fn add(list: &mut CaseList) {
    for widths in LISTS {
        let size = Reading::V9Fixed.least_size(widths);
        for length in lengths_around(size) {
            for reading in Reading::ALL {
                add_length(list, reading, widths, size, length);
            }
        }
    }
}

fn lengths_around(size: usize) -> BTreeSet<usize> {
    (0..=RECORDS)
        .flat_map(|records| {
            let whole = records * size;
            whole.saturating_sub(AROUND)..=whole + AROUND
        })
        .collect()
}

fn add_length(list: &mut CaseList, reading: Reading, widths: &[u16], size: usize, length: usize) {
    let body = content(length);
    list.add(reading, LARGE[length % 2], widths, &body);
    // A limit that is reached early leaves a whole record over, whatever follows it.
    if length.is_multiple_of(size) {
        for limit in limits_around(length / size) {
            list.add(reading, limit, widths, &body);
        }
    }
}
