//! Command `record-pendlist`: a list of calls for the program `pendlist`, and the table that the
//! original gives for it. A second `c` ends it, with `bad` by document 01's rule.

use super::limits::{Areas, Limits};
use super::original::Cache;
use crate::random::Random;
use std::collections::BTreeMap;
use std::fs::File;
use std::io::{self, BufWriter, Write};
use std::process::ExitCode;

/// Seed and lines.
pub const DEFAULTS: (u64, u64) = (5, 6_000);

/// The areas of the program.
const AREAS: Areas = Areas { bytes: 16_384, words: 4_096 };

/// Small enough that every answer comes up often.
const LIMITS: Limits = Limits { templates: 5, bodies: 4, entry: 60, total: 260, ttl: Some(TTL) };
const TTL: u64 = 50;

const HEADER: &str = "call answer held bytes cached dropped";

#[derive(Debug, Clone, Copy)]
enum Line {
    Offer { id: u16, length: u16, clock: u64 },
    Drain { id: u16, clock: u64 },
}

/// How often each row's call and answer came up.
type Counts = BTreeMap<(char, u64), u64>;

pub fn run(list: &str, table: &str, seed: u64, lines: u64) -> Result<ExitCode, String> {
    let create = |file: &str| File::create(file).map_err(|error| format!("{file}: {error}"));
    let (list, table) = (BufWriter::new(create(list)?), BufWriter::new(create(table)?));
    let counts = write_both(list, table, seed, lines).map_err(|error| error.to_string())?;
    for ((call, answer), count) in &counts {
        println!("{call} {answer}: {count}");
    }
    Ok(ExitCode::SUCCESS)
}

fn write_both(
    mut list: impl Write,
    mut table: impl Write,
    seed: u64,
    lines: u64,
) -> io::Result<Counts> {
    let mut cache = Cache::open(&LIMITS, AREAS).expect("legal limits");
    let mut generator = Generator { random: Random::new(seed), clock: 0 };
    let mut counts = Counts::new();
    writeln!(list, "{}", opening(&LIMITS))?;
    writeln!(table, "{HEADER}")?;
    for _ in 0..lines {
        let line = generator.line();
        writeln!(list, "{}", generator.text(line))?;
        let (row, call, answer) = row(&mut cache, line);
        writeln!(table, "{row}")?;
        *counts.entry((call, answer)).or_default() += 1;
    }
    writeln!(list, "{}", opening(&LIMITS))?;
    writeln!(list, "{}", generator.text(Line::Offer { id: 300, length: 1, clock: 0 }))?;
    writeln!(table, "bad")?;
    list.flush()?;
    table.flush()?;
    Ok(counts)
}

fn opening(limits: &Limits) -> String {
    let Limits { templates, bodies, entry, total, ttl } = limits;
    let ttl = ttl.map_or("-".to_string(), |ttl| ttl.to_string());
    format!("c {templates} {bodies} {entry} {total} {ttl}")
}

/// Makes the call on the original: its row, its letter and its answer.
fn row(cache: &mut Cache, line: Line) -> (String, char, u64) {
    let (call, answer) = match line {
        Line::Offer { id, length, clock } => {
            let body = (0..length).map(|at| (at % 256) as u8).collect();
            ('o', cache.offer(id, body, clock).into())
        }
        Line::Drain { id, clock } => ('d', cache.drain(id, clock)),
    };
    let state = cache.state();
    let (held, bytes) = (state.bodies(), state.bytes);
    let row = format!("{call} {answer} {held} {bytes} {} {}", state.cached, state.dropped);
    (row, call, answer)
}

struct Generator {
    random: Random,
    clock: u64,
}

impl Generator {
    fn line(&mut self) -> Line {
        let (id, clock) = (self.id(), self.next_clock());
        if self.random.percent(20) {
            Line::Drain { id, clock }
        } else {
            Line::Offer { id, length: self.length(), clock }
        }
    }

    fn id(&mut self) -> u16 {
        self.random.pick(&[300, 300, 300, 301, 301, 302, 303, 304, 305, 306, 0, 65_535])
    }

    fn length(&mut self) -> u16 {
        match self.random.below(100) {
            0..=4 => 0,
            5..=9 => LIMITS.entry as u16,
            10..=12 => LIMITS.entry as u16 + 1,
            13 => self.random.pick(&[16_384, 16_385, 65_531, 65_535]),
            _ => 1 + self.random.below(25) as u16,
        }
    }

    /// Mostly on by a little; sometimes by the TTL or one less, sometimes back, seldom far.
    fn next_clock(&mut self) -> u64 {
        self.clock = match self.random.below(200) {
            0..=129 => self.clock.saturating_add(self.random.below(3)),
            130..=169 => self.clock.saturating_add(self.random.below(TTL)),
            170..=177 => self.clock.saturating_add(TTL),
            178..=185 => self.clock.saturating_add(TTL - 1),
            186..=196 => self.clock.saturating_sub(self.random.below(2 * TTL)),
            197 => 0,
            198 => self.clock.saturating_add(1_000_000_000),
            _ => u64::MAX - self.random.below(3),
        };
        let clock = self.clock;
        if clock > u64::MAX - TTL {
            // further readings begin anew: else there would be no greater one
            self.clock = self.random.below(1_000);
        }
        clock
    }

    /// The line as it is written, now and then with leading zeros.
    fn text(&mut self, line: Line) -> String {
        let zeros = if self.random.percent(3) { self.random.index(24) } else { 0 };
        let zeros = "0".repeat(zeros);
        match line {
            Line::Offer { id, length, clock } => format!("o {id} {zeros}{length} {clock}"),
            Line::Drain { id, clock } => format!("d {zeros}{id} {clock}"),
        }
    }
}

#[cfg(test)]
mod tests {
    use super::*;

    #[test]
    fn document_01_table() {
        let limits = Limits { templates: 2, bodies: 2, entry: 10, total: 16, ttl: Some(100) };
        assert_eq!(opening(&limits), "c 2 2 10 16 100");
        let mut cache = Cache::open(&limits, AREAS).expect("legal limits");
        let lines = [
            Line::Offer { id: 300, length: 6, clock: 0 },
            Line::Offer { id: 301, length: 8, clock: 1 },
            Line::Offer { id: 300, length: 4, clock: 2 },
            Line::Drain { id: 301, clock: 3 },
        ];
        let rows = lines.map(|line| row(&mut cache, line).0);
        assert_eq!(rows, ["o 0 1 6 1 0", "o 0 2 14 2 0", "o 0 2 12 3 1", "d 1 1 4 3 1"]);
    }

    #[test]
    fn every_answer_comes_up() {
        let (seed, lines) = DEFAULTS;
        let counts = write_both(io::sink(), io::sink(), seed, lines).expect("a sink takes all");
        let drains = (0..=LIMITS.bodies).map(|answer| ('d', answer));
        let offers = [0, 6, 20].map(|answer| ('o', answer));
        assert!(counts.keys().copied().eq(drains.chain(offers)));
    }
}
