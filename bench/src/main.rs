//! Measures the proved library against the original Rust text. README.md has the commands.

mod both;
mod budget_rows;
mod by_hand;
mod cache_rows;
mod counts;
mod figures;
mod held;
mod lent;
mod placed;
mod port;
mod preflight_rows;
mod shape;
mod stack;
mod sums;
mod timing;

use std::io;
use std::process::ExitCode;
use std::time::Duration;
use timing::Budget;

const USAGE: &str = "\
usage: bench [quick] all
       bench [quick] preflight [plain]
       bench [quick] queries plain
       bench least preflight         of several plain preflights on standard input
       bench least queries           likewise
       bench [quick] budget
       bench [quick] cache [WORD]    tables whose name has the word
       bench [quick] orders
       bench [quick] labels
       bench [quick] moves
       bench stack
       bench counts                  by valgrind
       bench repeat NAME TEMPLATES BODIES";

const QUICK: Budget = Budget { time: Duration::from_millis(50), runs: 10 };
const FULL: Budget = Budget { time: Duration::from_millis(500), runs: 50 };

fn main() -> ExitCode {
    let arguments: Vec<String> = std::env::args().skip(1).collect();
    let arguments: Vec<&str> = arguments.iter().map(String::as_str).collect();
    let (budget, words) = match &arguments[..] {
        ["quick", rest @ ..] => (QUICK, rest),
        all => (FULL, all),
    };
    match run(budget, words) {
        Ok(()) => ExitCode::SUCCESS,
        Err(message) => {
            eprintln!("{message}");
            ExitCode::FAILURE
        }
    }
}

fn run(budget: Budget, words: &[&str]) -> Result<(), String> {
    match words {
        ["all"] => {
            preflight_rows::print(budget);
            budget_rows::print(budget);
            cache_rows::print(budget, "");
            cache_rows::print_orders(budget);
            cache_rows::print_labels(budget);
            cache_rows::print_moves(budget);
            stack::print();
            counts::print()?;
        }
        ["preflight"] => preflight_rows::print(budget),
        ["preflight", "plain"] => preflight_rows::print_plain(budget),
        ["budget"] => budget_rows::print(budget),
        ["queries", "plain"] => cache_rows::print_plain_queries(budget),
        ["least", kind] => {
            let kind = match *kind {
                "preflight" => placed::PREFLIGHT,
                "queries" => placed::QUERIES,
                _ => return Err(USAGE.to_string()),
            };
            let input = io::read_to_string(io::stdin()).map_err(|error| error.to_string())?;
            placed::print(&kind, &input)?;
        }
        ["cache"] => cache_rows::print(budget, ""),
        ["cache", word] => cache_rows::print(budget, word),
        ["orders"] => cache_rows::print_orders(budget),
        ["labels"] => cache_rows::print_labels(budget),
        ["moves"] => cache_rows::print_moves(budget),
        ["stack"] => stack::print(),
        ["counts"] => counts::print()?,
        // What `counts` has valgrind run.
        ["counted"] => counts::run(),
        ["repeat", name, templates, bodies] => {
            let number = |text: &str| text.parse().map_err(|_| USAGE.to_string());
            cache_rows::repeat(name, number(templates)?, number(bodies)?);
        }
        _ => return Err(USAGE.to_string()),
    }
    Ok(())
}
