//! Cases on both sides of the size limits, and those with the largest costs there can be.

use super::case::{Case, Reading};
use crate::numbers::{MAX_BODY, MAX_WIDTHS, VARIABLE};

const BODY_LENGTHS: [usize; 6] = [0, MAX_BODY - 2, MAX_BODY - 1, MAX_BODY, MAX_BODY + 1, 65_536];
const LIST_LENGTHS: [usize; 6] = [0, 1, MAX_BODY, MAX_WIDTHS - 1, MAX_WIDTHS, MAX_WIDTHS + 1];
const LIMITS: [u64; 5] = [0, 1, 40, 65_536, u64::MAX];

pub fn for_each_case(mut visit: impl FnMut(&Case)) {
    for widths in lists() {
        for length in BODY_LENGTHS {
            for reading in Reading::ALL {
                for &max_records in limits(reading, &widths) {
                    // Zeros: each variable field is one empty content.
                    let body = vec![0; length];
                    visit(&Case { reading, max_records, widths: widths.clone(), body });
                }
            }
        }
    }
}

/// Lists of one width repeated, and lists of zeros with one other width in front.
fn lists() -> Vec<Vec<u16>> {
    let mut lists = Vec::new();
    for length in LIST_LENGTHS {
        for width in [0, 1, 2, VARIABLE] {
            lists.push(vec![width; length]);
        }
        for first in [1, 3, 65_530, 65_531, 65_532, VARIABLE] {
            let mut list = vec![0; length];
            list[..length.min(1)].fill(first);
            lists.push(list);
        }
    }
    lists.sort();
    lists.dedup();
    lists
}

/// The variable scan walks the whole list for each record, so tens of thousands of both take too
/// long: long lists get small limits there.
fn limits(reading: Reading, widths: &[u16]) -> &'static [u64] {
    if reading == Reading::IpfixVariable && widths.len() > 1000 { &LIMITS[..3] } else { &LIMITS }
}
