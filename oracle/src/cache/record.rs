//! Command `record-cache`: lists of calls with the original's answers and what is then held.

use super::counts::Table;
use super::document;
use super::generator::Generator;
use super::generator::profile::SMALL;
use super::parts::{Taker, make_list};
use super::rows::Rows;
use std::io;
use std::process::ExitCode;

const SEED: u64 = 3;
const LISTS: u64 = 2_050;
const LONGEST_LIST: u64 = 18;

/// The list is part of the repository, so it is kept small. A replaying program would take more:
/// it reads a buffer of 65,536 bytes at a time, and only a row must be shorter than that.
const LARGEST_FILE: usize = 1_000_000;

pub fn run(file: &str) -> Result<ExitCode, String> {
    let list = recorded_rows().map_err(|error| error.to_string())?;
    let bytes = list.out.len();
    assert!(bytes < LARGEST_FILE, "the list has {bytes} bytes");
    std::fs::write(file, &list.out).map_err(|error| format!("{file}: {error}"))?;
    let counts = [("recorded", list.counts)];
    print!("{}", Table(&counts));
    println!("{bytes} bytes");
    Ok(ExitCode::SUCCESS)
}

fn recorded_rows() -> io::Result<Rows<Vec<u8>>> {
    let mut rows = Rows::new(Vec::new());
    for calls in document::lists() {
        rows.add_all(&calls)?;
    }
    let mut generator = Generator::new(SEED, &SMALL);
    while rows.counts.lists() < LISTS {
        make_list(&mut rows, &mut generator, LONGEST_LIST)?;
    }
    Ok(rows)
}
