//! How many rows have which call and number.

use super::call::Call;
use std::collections::BTreeMap;
use std::fmt;

/// By call and number, departures apart.
#[derive(Default)]
pub struct Counts(BTreeMap<(u64, u32, bool), u64>);

impl Counts {
    pub fn add(&mut self, call: &Call, number: u32, departs: bool) {
        *self.0.entry((call.row_words()[0], number, departs)).or_default() += 1;
    }

    pub fn rows(&self) -> u64 {
        self.0.values().sum()
    }
}

impl fmt::Display for Counts {
    fn fmt(&self, to: &mut fmt::Formatter<'_>) -> fmt::Result {
        write!(to, "{} rows", self.rows())?;
        for ((call, number, departs), count) in &self.0 {
            let mark = if *departs { " (document 01, not the original)" } else { "" };
            write!(to, "\n  call {call}, number {number}: {count}{mark}")?;
        }
        Ok(())
    }
}
