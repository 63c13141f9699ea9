//! Runs the original Rust text beside what was ported from it. README.md has the commands.

use oracle::{budget, cache, framing};
use std::process::ExitCode;

const USAGE: &str = "\
usage: oracle record-framing FILE
       oracle record-budget FILE
       oracle stream-budget [SEED [COUNT]]
       oracle record-cache FILE
       oracle stream-cache [SEED [LISTS]]
       oracle stream-cache-defaults [SEED [CALLS]]
       oracle count-cache [SEED [LISTS]]
       oracle record-pendlist LIST TABLE [SEED [LINES]]
       oracle compare-framing [SEED [COUNT]]   (feature live)
       oracle compare-cache [SEED [LISTS]]     (feature live)
       oracle compare-cache-defaults [SEED [CALLS]]   (feature live)
       oracle compare-cache-labels [SEED [LISTS]]     (feature live)
       oracle compare-cache-moves [SEED [LISTS]]      (feature live)
       oracle damage-cache [SEED [TRIALS]]     (feature live)
       oracle memory-cache [SEED [TRIALS]]     (feature live)";

fn main() -> ExitCode {
    let arguments: Vec<String> = std::env::args().skip(1).collect();
    let arguments: Vec<&str> = arguments.iter().map(String::as_str).collect();
    match run(&arguments) {
        Ok(code) => code,
        Err(message) => {
            eprintln!("{message}");
            ExitCode::FAILURE
        }
    }
}

fn run(arguments: &[&str]) -> Result<ExitCode, String> {
    match arguments {
        ["record-framing", file] => framing::record::run(file),
        ["record-budget", file] => budget::record::run(file),
        ["stream-budget", rest @ ..] => {
            let (seed, count) = seed_and_count(rest, budget::stream::DEFAULTS)?;
            budget::stream::run(seed, count)
        }
        ["record-cache", file] => cache::record::run(file),
        ["stream-cache", rest @ ..] => {
            let (seed, lists) = seed_and_count(rest, cache::stream::DEFAULTS)?;
            cache::stream::run(seed, lists)
        }
        ["stream-cache-defaults", rest @ ..] => {
            let (seed, calls) = seed_and_count(rest, cache::stream::DEFAULT_LIMITS_DEFAULTS)?;
            cache::stream::run_default_limits(seed, calls)
        }
        ["count-cache", rest @ ..] => {
            let (seed, lists) = seed_and_count(rest, cache::count::DEFAULTS)?;
            cache::count::run(seed, lists)
        }
        ["record-pendlist", list, table, rest @ ..] => {
            let (seed, lines) = seed_and_count(rest, cache::pendlist::DEFAULTS)?;
            cache::pendlist::run(list, table, seed, lines)
        }
        #[cfg(feature = "live")]
        ["compare-framing", rest @ ..] => {
            let (seed, count) = seed_and_count(rest, framing::compare::DEFAULTS)?;
            framing::compare::run(seed, count)
        }
        #[cfg(feature = "live")]
        ["compare-cache", rest @ ..] => {
            let (seed, lists) = seed_and_count(rest, cache::compare::DEFAULTS)?;
            cache::compare::run(seed, lists)
        }
        #[cfg(feature = "live")]
        ["compare-cache-defaults", rest @ ..] => {
            let (seed, calls) = seed_and_count(rest, cache::compare::DEFAULT_LIMITS_DEFAULTS)?;
            cache::compare::run_default_limits(seed, calls)
        }
        #[cfg(feature = "live")]
        ["compare-cache-labels", rest @ ..] => {
            let (seed, lists) = seed_and_count(rest, cache::compare::LABELS_DEFAULTS)?;
            cache::compare::run_labels(seed, lists)
        }
        #[cfg(feature = "live")]
        ["compare-cache-moves", rest @ ..] => {
            let (seed, lists) = seed_and_count(rest, cache::compare::MOVES_DEFAULTS)?;
            cache::compare::run_moves(seed, lists)
        }
        #[cfg(feature = "live")]
        ["damage-cache", rest @ ..] => {
            let (seed, trials) = seed_and_count(rest, cache::damage::DEFAULTS)?;
            cache::damage::run(seed, trials)
        }
        #[cfg(feature = "live")]
        ["memory-cache", rest @ ..] => {
            let (seed, trials) = seed_and_count(rest, cache::memory::DEFAULTS)?;
            cache::memory::run(seed, trials)
        }
        _ => Err(USAGE.to_string()),
    }
}

/// What the command line gives of the two, else the defaults.
fn seed_and_count(given: &[&str], defaults: (u64, u64)) -> Result<(u64, u64), String> {
    let number = |text: &str| text.parse().map_err(|_| format!("not a number: {text}"));
    match given {
        [] => Ok(defaults),
        [seed] => Ok((number(seed)?, defaults.1)),
        [seed, count] => Ok((number(seed)?, number(count)?)),
        _ => Err(USAGE.to_string()),
    }
}
