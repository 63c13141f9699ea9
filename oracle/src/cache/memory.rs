//! Command `memory-cache`: small lists of calls, lists in which bodies move, and damaged areas,
//! each call on heap blocks that are exactly as long as what is lent. A memory checker sees an
//! access outside.

use super::lent::Blocks;
use super::parts::Part;
use super::{compare, damage};
use std::process::ExitCode;

/// Seed and number of damaged areas.
pub const DEFAULTS: (u64, u64) = (1, 2_000);

/// A list of up to 60 calls has about as many calls as four damaged areas.
const AREAS_OF_LIST: u64 = 4;

/// Few, as their areas are long. Bodies are moved in blocks, and none of a small list is longer
/// than one.
const AREAS_OF_MOVES: u64 = 50;

pub fn run(seed: u64, trials: u64) -> Result<ExitCode, String> {
    let small = Part::Small { seed, lists: trials / AREAS_OF_LIST };
    let moves = Part::ShortMoves { seed, lists: trials / AREAS_OF_MOVES };
    let compared = compare::run_on(Blocks::Exact, &[small, moves])?;
    let damaged = damage::run_on(Blocks::Exact, seed, trials)?;
    Ok(if compared == ExitCode::SUCCESS { damaged } else { compared })
}
