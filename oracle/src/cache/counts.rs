//! How many calls had which answer, and went which way.

use super::branch::Branch;
use super::call::Call;
use crate::numbers::{AREAS_TOO_SMALL, NO_CHANCE, NOT_HANDED_OUT};
use std::collections::BTreeMap;
use std::fmt;

#[derive(Default)]
pub struct Counts {
    /// By call and number.
    numbers: BTreeMap<(u64, u32), u64>,
    branches: BTreeMap<Branch, u64>,
}

impl Counts {
    pub fn add(&mut self, call: &Call, number: u32, branches: impl Iterator<Item = Branch>) {
        *self.numbers.entry((call.row_words()[0], number)).or_default() += 1;
        for branch in branches {
            *self.branches.entry(branch).or_default() += 1;
        }
    }

    pub fn rows(&self) -> u64 {
        self.numbers.values().sum()
    }

    /// Openings that were accepted.
    pub fn lists(&self) -> u64 {
        self.branch(Branch::Opened)
    }

    fn number(&self, key: (u64, u32)) -> u64 {
        self.numbers.get(&key).copied().unwrap_or(0)
    }

    fn branch(&self, branch: Branch) -> u64 {
        self.branches.get(&branch).copied().unwrap_or(0)
    }
}

/// The counts of several parts beside each other, with their sum and its share of all rows.
pub struct Table<'a>(pub &'a [(&'static str, Counts)]);

impl Table<'_> {
    pub fn rows(&self) -> u64 {
        self.0.iter().map(|(_, counts)| counts.rows()).sum()
    }

    fn line(
        &self,
        to: &mut fmt::Formatter<'_>,
        text: &str,
        count: impl Fn(&Counts) -> u64,
    ) -> fmt::Result {
        let counts: Vec<u64> = self.0.iter().map(|(_, part)| count(part)).collect();
        let sum: u64 = counts.iter().sum();
        write!(to, "{sum:>10} {:>8.4} %", 100.0 * sum as f64 / self.rows() as f64)?;
        for count in counts {
            write!(to, " {count:>10}")?;
        }
        writeln!(to, "  {text}")
    }
}

impl fmt::Display for Table<'_> {
    fn fmt(&self, to: &mut fmt::Formatter<'_>) -> fmt::Result {
        write!(to, "{:>10} {:>10}", "all", "share")?;
        for (name, _) in self.0 {
            write!(to, " {name:>10}")?;
        }
        writeln!(to)?;
        self.line(to, "lists", Counts::lists)?;
        self.line(to, "calls", Counts::rows)?;
        let mut keys: Vec<(u64, u32)> =
            self.0.iter().flat_map(|(_, counts)| counts.numbers.keys().copied()).collect();
        keys.sort_unstable();
        keys.dedup();
        for key in keys {
            let (call, number) = key;
            let mark = if is_departure(number) { " (document 01, not the original)" } else { "" };
            let text = format!("{}: {number}{mark}", Call::NAMES[call as usize]);
            self.line(to, &text, |counts| counts.number(key))?;
        }
        for &branch in Branch::ALL {
            self.line(to, branch.text(), |counts| counts.branch(branch))?;
        }
        Ok(())
    }
}

/// Whether document 01 alone gives this number: the original is not asked.
fn is_departure(number: u32) -> bool {
    [AREAS_TOO_SMALL, NO_CHANCE, NOT_HANDED_OUT].contains(&number)
}
