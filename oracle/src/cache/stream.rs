//! Commands `stream-cache` and `stream-cache-defaults`: rows on standard output, for a replaying
//! program at the other end of a pipe.

use super::counts::Table;
use super::parts::Part;
use std::io::{self, BufWriter};
use std::process::ExitCode;

/// Seed and number of small lists.
pub const DEFAULTS: (u64, u64) = (1, 200_000);

/// Seed and number of calls in each of two lists.
pub const DEFAULT_LIMITS_DEFAULTS: (u64, u64) = (1, 20_000);

/// What goes into the areas of a replaying program.
pub fn run(seed: u64, lists: u64) -> Result<ExitCode, String> {
    stream(&[Part::Exhaustive, Part::Small { seed, lists }, Part::Middle { seed }])
}

/// What needs areas for the default limits.
pub fn run_default_limits(seed: u64, calls: u64) -> Result<ExitCode, String> {
    stream(&[Part::Defaults { seed, calls }])
}

fn stream(parts: &[Part]) -> Result<ExitCode, String> {
    // A reader that stops early shows here too, as a broken pipe.
    let counts = Part::write_all(parts, BufWriter::new(io::stdout().lock()))
        .map_err(|error| format!("standard output: {error}"))?;
    let table = Table(&counts);
    eprint!("{table}");
    eprintln!("{} rows", table.rows());
    Ok(ExitCode::SUCCESS)
}
