//! Command `compare-framing`: the ported functions beside the original, input for input.

use super::answer::{Answer, original_answer};
use super::case::{Case, Reading};
use super::generator::{Share, Sizes, random_case};
use super::record::recorded_cases;
use super::{exhaustive, giants};
use crate::numbers::{DONE, MAX_BODY, MAX_WIDTHS, NO_RECORDS, TOO_LARGE, VARIABLE};
use crate::port::{self, UNTOUCHED, shown};
use crate::random::Random;
use std::collections::BTreeMap;
use std::process::ExitCode;

/// Seed and number of generated inputs.
pub const DEFAULTS: (u64, u64) = (1, 3_000_000);

const SHOWN: u64 = 10;

const SEVERAL: usize = 2;

const SIZES: Sizes = Sizes {
    widths: &[
        Share { weight: 60_000, least: 1, most: 4 },
        Share { weight: 30_000, least: 5, most: 20 },
        Share { weight: 8_000, least: 21, most: 100 },
        Share { weight: 1_000, least: 0, most: 0 },
        Share { weight: 1_000, least: 101, most: 600 },
        Share { weight: 8, least: MAX_WIDTHS - 2, most: MAX_WIDTHS + 1 },
    ],
    bodies: &[
        Share { weight: 7_500, least: 0, most: 64 },
        Share { weight: 1_000, least: 65, most: 600 },
        Share { weight: 1_000, least: 1_400, most: 1_500 },
        Share { weight: 400, least: 1_500, most: 1_500 },
        Share { weight: 40, least: 1_501, most: MAX_BODY },
        Share { weight: 15, least: MAX_BODY, most: MAX_BODY },
        Share { weight: 15, least: MAX_BODY - 1, most: MAX_BODY - 1 },
        Share { weight: 3, least: MAX_BODY + 1, most: MAX_BODY + 5 },
    ],
    longest_body: MAX_BODY + 5,
    zero_limit: true,
};

pub fn run(seed: u64, count: u64) -> Result<ExitCode, String> {
    let mut small = Comparison::default();
    exhaustive::for_each_case(|case| small.compare(case));
    small.print("exhaustive part");

    let mut recorded = Comparison::default();
    for case in recorded_cases().cases() {
        recorded.compare(case);
    }
    recorded.print("recorded cases");

    let mut large = Comparison::default();
    giants::for_each_case(|case| large.compare(case));
    large.print("largest sizes");

    let mut generated = Comparison::default();
    let mut random = Random::new(seed);
    for _ in 0..count {
        generated.compare(&random_case(&mut random, &SIZES));
    }
    generated.print(&format!("generated part, seed {seed}"));

    let parts = [small, recorded, large, generated];
    let same = parts.iter().all(|part| part.differences == 0);
    Ok(if same { ExitCode::SUCCESS } else { ExitCode::FAILURE })
}

/// The original's answer, but where document 01 departs from it: 9 and 12 come first.
fn document_answer(case: &Case) -> Answer {
    if case.max_records == 0 {
        Answer::refused(NO_RECORDS)
    } else if case.body.len() > MAX_BODY || case.widths.len() > MAX_WIDTHS {
        Answer::refused(TOO_LARGE)
    } else {
        original_answer(case)
    }
}

#[derive(Default)]
struct Comparison {
    inputs: u64,
    /// By reading and expected number.
    answers: BTreeMap<(u8, u32), u64>,
    /// In the variable reading, by how many fields are variable (0, 1, or 2 for several) and
    /// expected number: the port scans each kind of template in its own way.
    variable: BTreeMap<(usize, u32), u64>,
    differences: u64,
}

impl Comparison {
    fn compare(&mut self, case: &Case) {
        let expected = document_answer(case);
        let expected_cost = if expected.number == DONE { expected.cost } else { UNTOUCHED };
        let mut cost = UNTOUCHED;
        let number = port::framing::preflight(case, &mut cost);

        self.inputs += 1;
        *self.answers.entry((case.reading as u8, expected.number)).or_default() += 1;
        if case.reading == Reading::IpfixVariable {
            let fields = case.widths.iter().filter(|&&width| width == VARIABLE).count();
            *self.variable.entry((fields.min(SEVERAL), expected.number)).or_default() += 1;
        }
        if number != expected.number || cost != expected_cost {
            self.differences += 1;
            if self.differences <= SHOWN {
                println!("difference: {}", short_row(case));
                println!("  expected {}: {}", expected.number, shown(expected_cost));
                println!("  port     {number}: {}", shown(cost));
            }
        }
    }

    fn print(&self, part: &str) {
        println!("{part}: {} inputs, {} differences", self.inputs, self.differences);
        for reading in Reading::ALL {
            let answers = self.answers.range((reading as u8, 0)..=(reading as u8, u32::MAX));
            let answers: Vec<String> =
                answers.map(|((_, number), count)| format!("{number}: {count}")).collect();
            println!("  {reading:?} {}", answers.join(", "));
        }
        for (fields, name) in ["no", "one", "several"].into_iter().enumerate() {
            let answers = self.variable.range((fields, 0)..=(fields, u32::MAX));
            let answers: Vec<String> =
                answers.map(|((_, number), count)| format!("{number}: {count}")).collect();
            println!("    {name} variable: {}", answers.join(", "));
        }
    }
}

/// The row of the case, cut where it gets too long to read.
fn short_row(case: &Case) -> String {
    const READABLE: usize = 1000;
    let mut row = case.row();
    if row.len() > READABLE {
        row.truncate(READABLE);
        row.push_str(&format!(
            " .. ({} widths, {} body bytes)",
            case.widths.len(),
            case.body.len()
        ));
    }
    row
}
