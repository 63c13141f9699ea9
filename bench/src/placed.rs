//! What was measured with the functions at several places of the program.

use crate::figures::{ratio, time};

/// A table of such figures: what heads its columns, up to those of the two sides.
pub struct Kind {
    title: &'static str,
    head: &'static str,
    line: &'static str,
}

pub const PREFLIGHT: Kind = Kind {
    title: "preflight",
    head: "| reading | fields | body | records | ours | Rust | ours / Rust | by placement |",
    line: "|---|---|---:|---:|---:|---:|---:|---:|",
};

pub const QUERIES: Kind = Kind {
    title: "queries",
    head: "| call | templates | bodies | ours | scalar sum | ours / scalar sum | by placement |",
    line: "|---|---:|---:|---:|---:|---:|---:|",
};

/// A row of all runs: the least of each side, and between what the ratios of single runs lie.
struct Least<'a> {
    name: &'a str,
    ours: f64,
    other: f64,
    low: f64,
    high: f64,
}

/// Reads the plain rows of several runs, each a name, ours and the other side, and prints the least.
pub fn print(kind: &Kind, input: &str) -> Result<(), String> {
    let mut rows: Vec<Least> = Vec::new();
    for line in input.lines() {
        let bad = || format!("not a row: {line}");
        let (name, figures) = line.split_once('\t').ok_or_else(bad)?;
        let (ours, other) = figures.split_once('\t').ok_or_else(bad)?;
        let number = |text: &str| text.parse::<f64>().map_err(|_| bad());
        let (ours, other) = (number(ours)?, number(other)?);
        let quotient = ours / other;
        match rows.iter_mut().find(|row| row.name == name) {
            Some(row) => {
                row.ours = row.ours.min(ours);
                row.other = row.other.min(other);
                row.low = row.low.min(quotient);
                row.high = row.high.max(quotient);
            }
            None => rows.push(Least { name, ours, other, low: quotient, high: quotient }),
        }
    }
    println!("\n### {}\n\n{}\n{}", kind.title, kind.head, kind.line);
    for Least { name, ours, other, low, high } in rows {
        let quotient = ratio(ours / other);
        let (ours, other, low, high) = (time(ours), time(other), ratio(low), ratio(high));
        println!("| {name} | {ours} | {other} | {quotient} | {low} to {high} |");
    }
    Ok(())
}
