//! Command `record-framing`: the fixed list of cases with the original's answers.

use super::answer::original_answer;
use super::case::Reading;
use super::case_list::{CaseList, ROW_BODY, ROW_WIDTHS};
use super::families;
use super::generator::{Share, Sizes, random_case};
use crate::numbers::DONE;
use crate::random::Random;
use std::process::ExitCode;

const SEED: u64 = 1;
const ROWS: usize = 6_000;

/// The list is part of the repository, so it is kept small. The replaying program would take
/// more: it reads a buffer of 65,536 bytes at a time, and only a row must be shorter than that.
const LARGEST_FILE: usize = 1_000_000;

const SIZES: Sizes = Sizes {
    widths: &[
        Share { weight: 60, least: 1, most: 4 },
        Share { weight: 30, least: 5, most: 12 },
        Share { weight: 9, least: 13, most: ROW_WIDTHS },
        Share { weight: 1, least: 0, most: 0 },
    ],
    bodies: &[
        Share { weight: 70, least: 0, most: 40 },
        Share { weight: 28, least: 41, most: 120 },
        Share { weight: 2, least: 121, most: ROW_BODY },
    ],
    longest_body: ROW_BODY,
    zero_limit: false,
};

pub fn run(file: &str) -> Result<ExitCode, String> {
    let mut text = String::new();
    // Per reading: cases with a cost, cases refused.
    let mut counts = [[0; 2]; 3];
    let list = recorded_cases();
    for case in list.cases() {
        let answer = original_answer(case);
        text.push_str(&format!("{} {}\n", case.row(), answer.row()));
        counts[case.reading as usize][usize::from(answer.number != DONE)] += 1;
    }
    assert!(text.len() < LARGEST_FILE, "the list has {} bytes", text.len());
    std::fs::write(file, &text).map_err(|error| format!("{file}: {error}"))?;
    println!("{} rows, {} bytes", list.cases().len(), text.len());
    for reading in Reading::ALL {
        let [measured, refused] = counts[reading as usize];
        println!("{reading:?}: {measured} with a cost, {refused} refused with 7");
    }
    Ok(ExitCode::SUCCESS)
}

/// The families, then cases by chance up to the number of rows.
pub fn recorded_cases() -> CaseList {
    let mut list = CaseList::default();
    families::add_all(&mut list);
    let mut random = Random::new(SEED);
    while list.cases().len() < ROWS {
        list.add_case(random_case(&mut random, &SIZES));
    }
    list
}
