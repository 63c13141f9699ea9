//! A list of cases, none of them twice, each small enough for a recorded row.

use super::case::{Case, Reading};
use std::collections::HashSet;

/// What a recorded row may hold, so that its reader can use areas of a set size.
pub const ROW_WIDTHS: usize = 64;
pub const ROW_BODY: usize = 1024;

#[derive(Default)]
pub struct CaseList {
    cases: Vec<Case>,
    seen: HashSet<String>,
}

impl CaseList {
    pub fn add(&mut self, reading: Reading, max_records: u64, widths: &[u16], body: &[u8]) {
        let (widths, body) = (widths.to_vec(), body.to_vec());
        self.add_case(Case { reading, max_records, widths, body });
    }

    pub fn add_case(&mut self, case: Case) {
        assert!(case.max_records != 0, "document 01 departs from the original there");
        assert!(case.widths.len() <= ROW_WIDTHS && case.body.len() <= ROW_BODY);
        if self.seen.insert(case.row()) {
            self.cases.push(case);
        }
    }

    pub fn cases(&self) -> &[Case] {
        &self.cases
    }
}
