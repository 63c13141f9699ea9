//! Rows of calls on one budget after another, with the answers and budgets expected.

use super::call::{Answer, Call};
use super::counts::Counts;
use super::departure::departure;
use super::original;
use crate::variable_versions::output_budget::DecodedOutputBudget;
use std::io::{self, Write};

pub struct Rows<W> {
    pub out: W,
    pub counts: Counts,
    budget: DecodedOutputBudget,
}

impl<W: Write> Rows<W> {
    pub fn new(out: W) -> Self {
        Self { out, counts: Counts::default(), budget: DecodedOutputBudget::new(0, 0) }
    }

    /// The words of the budget that the next call goes on with.
    pub fn state(&self) -> [u64; 7] {
        original::state(&self.budget)
    }

    /// Makes the call and writes its row.
    pub fn add(&mut self, call: &Call) -> io::Result<()> {
        let answer = self.make(call);
        self.write(call, &answer)
    }

    /// Makes the call. The answer is the original's, but where document 01 departs from it.
    pub fn make(&mut self, call: &Call) -> Answer {
        let departure = departure(&self.state(), call);
        let departs = departure.is_some();
        let answer = departure.unwrap_or_else(|| original::answer(&mut self.budget, call));
        self.counts.add(call, answer.number, departs);
        answer
    }

    fn write(&mut self, call: &Call, answer: &Answer) -> io::Result<()> {
        let [first, arguments @ ..] = call.row_words();
        write!(self.out, "{first}")?;
        let answer = [u64::from(answer.number)].into_iter().chain(answer.values);
        for word in arguments.into_iter().chain(answer).chain(self.state()) {
            write!(self.out, " {word}")?;
        }
        writeln!(self.out)
    }
}

#[cfg(test)]
mod tests {
    use super::*;

    fn last_row(calls: &[Call]) -> String {
        let mut rows = Rows::new(Vec::new());
        for call in calls {
            rows.add(call).expect("memory can be written");
        }
        let text = String::from_utf8(rows.out).expect("digits and blanks");
        text.lines().last().expect("a row").to_string()
    }

    /// Opens a budget, uses some of it and has an excess recorded.
    const USED: [Call; 3] = [
        Call::New { values: 10, payload: 100 },
        Call::Reserve { values: 8, payload: 9 },
        Call::Reserve { values: 3, payload: 500 },
    ];

    fn after_use(call: Call) -> String {
        last_row(&[&USED[..], &[call]].concat())
    }

    #[test]
    fn the_answer_is_the_originals() {
        assert_eq!(last_row(&USED), "3 3 500 0 0 0 0 0 23 1 10 11 10 100 8 9 1 10 11");
    }

    #[test]
    fn a_rollback_above_the_use_departs() {
        let rollback = |values, payload| after_use(Call::Rollback { values, payload });
        assert_eq!(rollback(9, 0), "4 9 0 0 0 0 0 0 26 0 0 0 10 100 8 9 1 10 11");
        assert_eq!(rollback(0, 10), "4 0 10 0 0 0 0 0 26 0 0 0 10 100 8 9 1 10 11");
        assert_eq!(rollback(8, 9), "4 8 9 0 0 0 0 0 0 0 0 0 10 100 8 9 0 0 0");
    }

    #[test]
    fn a_cost_above_the_whole_budget_departs() {
        let validate =
            |values, payload| after_use(Call::ValidateRemaining(Some([values, payload, 0])));
        assert_eq!(validate(11, 0), "7 0 11 0 0 0 0 0 8 0 0 0 10 100 8 9 1 10 11");
        assert_eq!(validate(0, 101), "7 0 0 101 0 0 0 0 8 0 0 0 10 100 8 9 1 10 11");
        assert_eq!(validate(10, 100), "7 0 10 100 0 0 0 0 22 0 0 0 10 100 8 9 1 10 11");
    }
}
