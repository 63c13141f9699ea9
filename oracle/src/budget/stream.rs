//! Command `stream-budget`: rows on standard output, for the replaying program at the other end of
//! a pipe.

use super::counts::Counts;
use super::exhaustive;
use super::generator::{Departures, Generator};
use super::rows::Rows;
use crate::random::Random;
use std::io::{self, BufWriter, Write};
use std::process::ExitCode;

/// Seed and number of generated rows.
pub const DEFAULTS: (u64, u64) = (1, 3_000_000);

const LONGEST_SEQUENCE: u64 = 60;

pub fn run(seed: u64, count: u64) -> Result<ExitCode, String> {
    // A reader that stops early shows here too, as a broken pipe.
    let [small, generated] =
        stream(seed, count).map_err(|error| format!("standard output: {error}"))?;
    eprintln!("exhaustive part: {small}");
    eprintln!("generated part, seed {seed}: {generated}");
    eprintln!("both parts: {} rows", small.rows() + generated.rows());
    Ok(ExitCode::SUCCESS)
}

fn stream(seed: u64, count: u64) -> io::Result<[Counts; 2]> {
    let mut out = BufWriter::new(io::stdout().lock());
    let small = write_small(&mut out)?;
    let generated = write_generated(&mut out, seed, count)?;
    out.flush()?;
    Ok([small, generated])
}

fn write_small(out: impl Write) -> io::Result<Counts> {
    let mut rows = Rows::new(out);
    exhaustive::for_each_sequence(|calls| calls.iter().try_for_each(|call| rows.add(call)))?;
    Ok(rows.counts)
}

fn write_generated(out: impl Write, seed: u64, count: u64) -> io::Result<Counts> {
    let mut rows = Rows::new(out);
    let mut generator = Generator { random: Random::new(seed), departures: Departures::Drawn };
    while rows.counts.rows() < count {
        rows.add(&generator.opening())?;
        for _ in 0..generator.random.below(LONGEST_SEQUENCE) {
            let call = generator.next(&rows.state());
            rows.add(&call)?;
        }
    }
    Ok(rows.counts)
}
