//! One input of the preflight.

use crate::numbers::VARIABLE;

/// The three readings of document 01, by their numbers in the recorded rows.
#[derive(Debug, Clone, Copy, PartialEq, Eq)]
pub enum Reading {
    V9Fixed = 0,
    IpfixFixed = 1,
    IpfixVariable = 2,
}

impl Reading {
    pub const ALL: [Self; 3] = [Self::V9Fixed, Self::IpfixFixed, Self::IpfixVariable];

    /// The least size of one record; a variable width counts 1.
    pub fn least_size(self, widths: &[u16]) -> usize {
        widths.iter().map(|&width| self.least_width(width)).sum()
    }

    fn least_width(self, width: u16) -> usize {
        if self == Self::IpfixVariable && width == VARIABLE { 1 } else { usize::from(width) }
    }
}

#[derive(Debug, Clone)]
pub struct Case {
    pub reading: Reading,
    pub max_records: u64,
    pub widths: Vec<u16>,
    pub body: Vec<u8>,
}

impl Case {
    /// `reading max_records n w1 .. wn m b1 .. bm`
    pub fn row(&self) -> String {
        let mut row = format!("{} {}", self.reading as u8, self.max_records);
        push_counted(&mut row, &self.widths);
        push_counted(&mut row, &self.body);
        row
    }
}

fn push_counted<T: ToString>(row: &mut String, numbers: &[T]) {
    row.push(' ');
    row.push_str(&numbers.len().to_string());
    for number in numbers {
        row.push(' ');
        row.push_str(&number.to_string());
    }
}
