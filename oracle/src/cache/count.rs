//! Command `count-cache`: which answers and branches the lists come to. Each call is made on the
//! original and on document 01's account, and the run stops where they differ.

use super::counts::Table;
use super::parts::Part;
use std::io;
use std::process::ExitCode;

/// Seed and number of small lists.
pub const DEFAULTS: (u64, u64) = (1, 200_000);

const DEFAULT_LIMITS_CALLS: u64 = 20_000;

const LABELS_LISTS: u64 = 100;

const MOVES_LISTS: u64 = 600;

pub fn run(seed: u64, lists: u64) -> Result<ExitCode, String> {
    let parts = [
        Part::Exhaustive,
        Part::Small { seed, lists },
        Part::Middle { seed },
        Part::Labels { seed, lists: LABELS_LISTS },
        Part::Defaults { seed, calls: DEFAULT_LIMITS_CALLS },
        Part::Moves { seed, lists: MOVES_LISTS },
    ];
    let counts = Part::write_all(&parts, io::sink()).map_err(|error| error.to_string())?;
    let table = Table(&counts);
    print!("{table}");
    println!("the original and document 01's account agree on all {} calls", table.rows());
    Ok(ExitCode::SUCCESS)
}
