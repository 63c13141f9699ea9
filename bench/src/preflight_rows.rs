//! The tables of the preflight.

use crate::figures::{grouped, ratio, time};
use crate::port::{self, Preflight, preflight};
use crate::timing::{Budget, interleaved, time_of};
use oracle::original;
use std::hint::black_box;

const VARIABLE: u16 = 65_535;
const NO_LIMIT: usize = 65_535;
const LENGTHS: [usize; 10] = [64, 256, 512, 1_500, 2_000, 3_000, 4_096, 9_000, 16_384, 65_531];

/// The longest body.
const LONGEST: usize = 65_531;

/// Different bodies that a timed run goes through, so that no branch is known from the run before:
/// as many as have so many bytes together, but not fewer than the first figure or more than the
/// second.
const RUN_BYTES: usize = 262_144;
const FEWEST: usize = 8;
const MOST: usize = 64;

type Rust = fn(&[u8], &[u16], usize) -> Option<[u64; 3]>;

/// A reading on both sides, and templates for it.
struct Reading {
    name: &'static str,
    ours: Preflight,
    rust: Rust,
    templates: &'static [Template],
}

struct Template {
    name: &'static str,
    widths: &'static [u16],
    /// The content of a variable field, by chance from the first to the second.
    content: (usize, usize),
}

const FLOW: [Template; 1] =
    [Template { name: "12 fixed", widths: &[4, 4, 4, 2, 2, 4, 4, 4, 4, 2, 2, 4], content: (0, 0) }];

const VARIABLES: [Template; 5] = [
    Template { name: "1 variable, 1 of 2 bytes", widths: &[VARIABLE, 2], content: (0, 15) },
    Template {
        name: "2 variable, 10 fixed",
        widths: &[4, 4, 2, 2, 1, 8, 8, VARIABLE, 4, 4, VARIABLE, 2],
        content: (5, 40),
    },
    Template { name: "1 variable, long", widths: &[VARIABLE], content: (255, 400) },
    Template { name: "1 variable, empty", widths: &[VARIABLE], content: (0, 0) },
    Template { name: "4 fixed", widths: &[4, 4, 2, 2], content: (0, 0) },
];

const READINGS: [Reading; 3] = [
    Reading {
        name: "v9 fixed",
        ours: port::V9_FIXED,
        rust: original::preflight_v9_fixed,
        templates: &FLOW,
    },
    Reading {
        name: "IPFIX fixed",
        ours: port::IPFIX_FIXED,
        rust: original::preflight_ipfix_fixed,
        templates: &FLOW,
    },
    Reading {
        name: "IPFIX variable",
        ours: port::IPFIX_VARIABLE,
        rust: original::preflight_ipfix_variable,
        templates: &VARIABLES,
    },
];

/// What was measured of a template's bodies of one length; body and records are means.
struct Row {
    name: String,
    body: usize,
    records: usize,
    ours: f64,
    rust: f64,
}

pub fn print(budget: Budget) {
    println!("\n### preflight\n");
    println!("| reading | fields | body | records | ours | Rust | ours / Rust |");
    println!("|---|---|---:|---:|---:|---:|---:|");
    for Row { name, body, records, ours, rust } in rows(budget) {
        let (body, records) = (grouped(body), grouped(records));
        let quotient = ratio(ours / rust);
        let (ours, rust) = (time(ours), time(rust));
        println!("| {name} | {body} | {records} | {ours} | {rust} | {quotient} |");
    }
}

/// The figures alone, for `placed::print`.
pub fn print_plain(budget: Budget) {
    for Row { name, body, records, ours, rust } in rows(budget) {
        let (body, records) = (grouped(body), grouped(records));
        println!("{name} | {body} | {records}\t{ours}\t{rust}");
    }
}

fn rows(budget: Budget) -> Vec<Row> {
    let mut rows = Vec::new();
    for reading in READINGS {
        for template in reading.templates {
            rows.extend(LENGTHS.map(|length| row(budget, &reading, template, length)));
        }
    }
    rows
}

fn row(budget: Budget, reading: &Reading, template: &Template, length: usize) -> Row {
    let bodies = template.bodies(length);
    let (widths, ours, rust) = (template.widths, reading.ours, reading.rust);
    let mut cost = [0; 3];
    let mut values = 0;
    for body in &bodies {
        let number = preflight(ours, body, widths, NO_LIMIT, &mut cost);
        assert_eq!((number, Some(cost)), (0, rust(body, widths, NO_LIMIT)), "{}", template.name);
        values += cost[0] as usize;
    }
    // Either leaves its answer in memory, and nothing copies it.
    let mut our_call = |body: &[u8]| {
        black_box(preflight(ours, body, widths, NO_LIMIT, &mut cost));
        black_box(&cost);
    };
    let mut rust_call = |body: &[u8]| _ = black_box(rust(body, widths, NO_LIMIT));
    let taken = interleaved(
        budget,
        &mut (),
        &mut [&mut |_| timed(&bodies, &mut our_call), &mut |_| timed(&bodies, &mut rust_call)],
    );
    Row {
        name: format!("{} | {}", reading.name, template.name),
        body: bodies.iter().map(Vec::len).sum::<usize>() / bodies.len(),
        records: values / widths.len() / bodies.len(),
        ours: taken[0].figure(),
        rust: taken[1].figure(),
    }
}

/// The length of the bodies whose instructions are counted.
const COUNTED: usize = 1_500;

/// A name for each template of each reading, and what makes its preflight, ours or the original's,
/// of one body.
pub fn counted() -> Vec<(String, usize, impl Fn(bool))> {
    let mut cases = Vec::new();
    for Reading { name, ours, rust, templates } in READINGS {
        for template in templates {
            let widths = template.widths;
            let body = template.bodies(COUNTED).swap_remove(0);
            let mut cost = [0; 3];
            preflight(ours, &body, widths, NO_LIMIT, &mut cost);
            let values = cost[0] as usize;
            let call = move |is_ours: bool| {
                if is_ours {
                    let mut cost = [0; 3];
                    time_of(|| black_box(preflight(ours, &body, widths, NO_LIMIT, &mut cost)));
                } else {
                    time_of(|| _ = black_box(rust(&body, widths, NO_LIMIT)));
                }
            };
            cases.push((format!("{name} | {}", template.name), values, call));
        }
    }
    cases
}

fn timed(bodies: &[Vec<u8>], call: &mut impl FnMut(&[u8])) -> (f64, u64) {
    let (time, ()) = time_of(|| {
        for body in black_box(bodies) {
            call(body);
        }
    });
    (time, bodies.len() as u64)
}

impl Template {
    /// Bodies of as many whole records as make up the length, or as fit into the longest body.
    fn bodies(&self, length: usize) -> Vec<Vec<u8>> {
        let mut random = Random(0x9E37_79B9_7F4A_7C15);
        let count = (RUN_BYTES / length).clamp(FEWEST, MOST);
        (0..count).map(|_| self.body(length, &mut random)).collect()
    }

    fn body(&self, length: usize, random: &mut Random) -> Vec<u8> {
        let mut body = Vec::new();
        while body.len() < length {
            let record = self.record(random);
            if body.len() + record.len() > LONGEST {
                break;
            }
            body.extend(record);
        }
        body
    }

    fn record(&self, random: &mut Random) -> Vec<u8> {
        let mut record = Vec::new();
        for &width in self.widths {
            let content = if width == VARIABLE {
                let content = random.within(self.content);
                match content {
                    0..=254 => record.push(content as u8),
                    _ => record.extend([255, (content >> 8) as u8, content as u8]),
                }
                content
            } else {
                usize::from(width)
            };
            record.resize(record.len() + content, 0x41);
        }
        record
    }
}

struct Random(u64);

impl Random {
    fn within(&mut self, (least, most): (usize, usize)) -> usize {
        self.0 ^= self.0 << 13;
        self.0 ^= self.0 >> 7;
        self.0 ^= self.0 << 17;
        least + (self.0 % (most - least + 1) as u64) as usize
    }
}
