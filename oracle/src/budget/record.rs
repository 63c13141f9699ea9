//! Command `record-budget`: sequences of calls with the original's answers and budgets.

use super::call::Call;
use super::generator::{Departures, Generator};
use super::rows::Rows;
use crate::random::Random;
use std::io;
use std::process::ExitCode;

const SEED: u64 = 2;
const ROWS: u64 = 12_000;
const LONGEST_SEQUENCE: u64 = 40;

/// The list is part of the repository, so it is kept small. The replaying program would take
/// more: it reads a buffer of 65,536 bytes at a time, and only a row must be shorter than that.
const LARGEST_FILE: usize = 1_000_000;

pub fn run(file: &str) -> Result<ExitCode, String> {
    let list = recorded_rows().map_err(|error| error.to_string())?;
    let bytes = list.out.len();
    assert!(bytes < LARGEST_FILE, "the list has {bytes} bytes");
    std::fs::write(file, &list.out).map_err(|error| format!("{file}: {error}"))?;
    println!("{bytes} bytes, {}", list.counts);
    Ok(ExitCode::SUCCESS)
}

fn recorded_rows() -> io::Result<Rows<Vec<u8>>> {
    let mut list = Rows::new(Vec::new());
    add_document_case(&mut list)?;
    add_limits(&mut list)?;
    let mut generator = Generator { random: Random::new(SEED), departures: Departures::LeftOut };
    while list.counts.rows() < ROWS {
        list.add(&generator.opening())?;
        for _ in 0..generator.random.below(LONGEST_SEQUENCE) {
            let call = generator.next(&list.state());
            list.add(&call)?;
        }
    }
    Ok(list)
}

fn add_document_case(list: &mut Rows<Vec<u8>>) -> io::Result<()> {
    list.add(&Call::New { values: 10, payload: 100 })?;
    list.add(&Call::Reserve { values: 8, payload: 0 })?;
    list.add(&Call::Reserve { values: 3, payload: 500 })
}

fn add_limits(list: &mut Rows<Vec<u8>>) -> io::Result<()> {
    const FIGURES: [u64; 3] = [0, 1, u64::MAX];
    for records in FIGURES {
        for values in FIGURES {
            for payload in FIGURES {
                list.add(&Call::Limits { records, values, payload })?;
            }
        }
    }
    Ok(())
}
