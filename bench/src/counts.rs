//! Instructions of each call, counted by callgrind: a measure that no load changes.
//!
//! `counts` runs this program once more under valgrind, where it makes each call once. What is
//! timed elsewhere is counted then, and callgrind writes a file after each call.

use crate::both::Both;
use crate::cache_rows::TABLES;
use crate::figures::{grouped, ratio};
use crate::preflight_rows;
use crate::shape::{Call, Shape};
use std::arch::asm;
use std::cell::RefCell;
use std::collections::HashMap;
use std::ffi::CString;
use std::fs;
use std::path::Path;
use std::process::Command;

/// Templates and bodies.
const GRID: [(usize, usize); 5] =
    [(16, 16), (16, 4_096), (1_024, 1_024), (1_024, 4_096), (1, 4_096)];

/// Runs under valgrind and prints the table.
pub fn print() -> Result<(), String> {
    let folder = std::env::temp_dir().join(format!("bench-counts-{}", std::process::id()));
    fs::create_dir_all(&folder).map_err(|error| error.to_string())?;
    let program = std::env::current_exe().map_err(|error| error.to_string())?;
    let status = Command::new("valgrind")
        .args(["--tool=callgrind", "--instr-atstart=no", "--quiet"])
        .arg(format!("--callgrind-out-file={}", folder.join("out").display()))
        .arg(program)
        .arg("counted")
        .status()
        .map_err(|error| format!("valgrind: {error}"))?;
    let counts = read(&folder);
    fs::remove_dir_all(&folder).map_err(|error| error.to_string())?;
    if !status.success() {
        return Err(format!("valgrind: {status}"));
    }
    print_table(&counts?);
    Ok(())
}

/// Each call once on each side, under valgrind.
pub fn run() {
    for (case, _, preflight) in preflight_rows::counted() {
        for (side, is_ours) in [("ours", true), ("rust", false)] {
            preflight(is_ours);
            count_as(format!("{case} | {side}"));
            preflight(is_ours);
            count_as(String::new());
        }
    }
    for (case, shape) in cases() {
        let mut both = Both::new(shape);
        // Each once uncounted: a first call of a function of the C library looks it up.
        both.ours();
        both.rust();
        count_as(format!("{case} | ours"));
        both.ours();
        count_as(format!("{case} | rust"));
        both.rust();
        count_as(format!("{case} | sum"));
        both.scalar();
        count_as(String::new());
    }
}

/// The calls with a name for each.
fn cases() -> Vec<(String, Shape)> {
    let mut cases = Vec::new();
    for table in TABLES {
        for (templates, bodies) in GRID.into_iter().filter(|at| table.has(at.0)) {
            let shape = table.shape(templates, bodies);
            let (templates, bodies) = (grouped(shape.templates), grouped(shape.bodies()));
            cases.push((format!("{} | {templates} | {bodies}", table.name), shape));
        }
    }
    cases
}

fn print_table(counts: &HashMap<String, u64>) {
    println!("\n### Instructions of a preflight of 1,500 bytes or a little more\n");
    println!("| reading | fields | values | ours | Rust | ours / Rust | ours, per value |");
    println!("|---|---|---:|---:|---:|---:|---:|");
    for (case, values, _) in preflight_rows::counted() {
        let count = |side: &str| counts.get(&format!("{case} | {side}")).copied().unwrap_or(0);
        let (ours, rust) = (count("ours"), count("rust"));
        println!(
            "| {case} | {} | {} | {} | {} | {:.1} |",
            grouped(values),
            grouped(ours as usize),
            grouped(rust as usize),
            ratio(ours as f64 / rust as f64),
            ours as f64 / values as f64,
        );
    }
    println!("\n### Instructions of the cache's calls\n");
    println!("| call | templates | bodies | ours | Rust | ours / Rust | scalar sum | per body |");
    println!("|---|---:|---:|---:|---:|---:|---:|---:|");
    for (case, shape) in cases() {
        let count = |side: &str| counts.get(&format!("{case} | {side}")).copied().unwrap_or(0);
        let (ours, rust, sum) = (count("ours"), count("rust"), count("sum"));
        // The original has no such call.
        let (rust, quotient) = match shape.call {
            Call::PlaceHandedOut => ("-".to_string(), "-".to_string()),
            _ => (grouped(rust as usize), ratio(ours as f64 / rust as f64)),
        };
        println!(
            "| {case} | {} | {rust} | {quotient} | {} | {:.1} |",
            grouped(ours as usize),
            grouped(sum as usize),
            ours as f64 / shape.bodies() as f64,
        );
    }
}

/// The instructions by the name of the dump.
fn read(folder: &Path) -> Result<HashMap<String, u64>, String> {
    let mut counts = HashMap::new();
    for file in fs::read_dir(folder).map_err(|error| error.to_string())? {
        let path = file.map_err(|error| error.to_string())?.path();
        let text = fs::read_to_string(&path).map_err(|error| error.to_string())?;
        let after = |start: &str| text.lines().find_map(|line| line.strip_prefix(start));
        let name = after("desc: Trigger: Client Request: ");
        let total = after("summary: ").or_else(|| after("totals: "));
        if let (Some(name), Some(total)) = (name, total.and_then(|text| text.parse().ok())) {
            counts.insert(name.to_string(), total);
        }
    }
    Ok(counts)
}

thread_local! {
    /// What the next call is counted as; no name: none is counted.
    static COUNTED: RefCell<String> = const { RefCell::new(String::new()) };
}

fn count_as(name: String) {
    COUNTED.set(name);
}

/// Whether calls are counted, and not timed.
pub fn counting() -> bool {
    COUNTED.with_borrow(|name| !name.is_empty())
}

// The requests of callgrind.h.
const ZERO_STATS: u64 = 0x4354_0001;
const DUMP_STATS_AT: u64 = 0x4354_0003;
const START_INSTRUMENTATION: u64 = 0x4354_0004;
const STOP_INSTRUMENTATION: u64 = 0x4354_0005;

#[cold]
#[inline(never)]
pub fn start() {
    request(START_INSTRUMENTATION, 0);
    request(ZERO_STATS, 0);
}

/// Has what was counted since the start written under its name.
#[cold]
#[inline(never)]
pub fn finish() {
    let name = COUNTED.with_borrow(|name| CString::new(name.as_str()).expect("no zero byte"));
    request(DUMP_STATS_AT, name.as_ptr() as u64);
    request(STOP_INSTRUMENTATION, 0);
}

/// The sequence of valgrind.h, which does nothing outside of valgrind.
fn request(request: u64, argument: u64) {
    let arguments = [request, argument, 0, 0, 0, 0];
    // SAFETY: the rotations of rdi add up to none, and the exchange is of a register with itself.
    unsafe {
        asm!(
            "rol rdi, 3",
            "rol rdi, 13",
            "rol rdi, 61",
            "rol rdi, 51",
            "xchg rbx, rbx",
            in("rax") arguments.as_ptr(),
            inout("rdx") 0_u64 => _,
        );
    }
}
