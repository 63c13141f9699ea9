//! The cases that are made by a rule, not by chance; each file is one subject.

mod cuts;
mod degenerate;
mod document;
mod lengths;
mod padding;
mod prefixes;

use super::case_list::CaseList;

/// No record limit that a body of a recorded row can reach.
const LARGE: [u64; 2] = [65_536, u64::MAX];

pub fn add_all(list: &mut CaseList) {
    document::add(list);
    degenerate::add(list);
    lengths::add(list);
    cuts::add(list);
    prefixes::add(list);
    padding::add(list);
}

/// One, and those around the number of whole records; never 0. The list drops doubles.
fn limits_around(records: usize) -> impl Iterator<Item = u64> {
    let records = records as u64;
    [1, records.saturating_sub(1), records, records + 1].into_iter().filter(|&limit| limit != 0)
}
