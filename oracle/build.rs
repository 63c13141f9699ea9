//! Makes the original text ready for `include!`, and finds the ported library for the feature
//! `live`.

use std::path::{Path, PathBuf};
use std::{env, fs};

/// The files compiled, below the source folder.
const ORIGINALS: [&str; 6] =
    ["wire.rs", "output_budget.rs", "config.rs", "ttl.rs", "metrics.rs", "pending_flows.rs"];

/// A line of an original that another stands for here.
struct Replaced {
    file: &'static str,
    original: &'static str,
    here: &'static str,
}

/// All that is changed in the originals, but for the comments at their heads.
const REPLACED: [Replaced; 1] = [Replaced {
    file: "pending_flows.rs",
    original: "use std::time::{Duration, Instant};",
    here: "use crate::clock::Instant; use std::time::Duration;",
}];

/// Seen from this package; stands beside the repository.
const DEFAULT_SOURCE: &str = "../../shared/docs/src";
const DEFAULT_LIBRARY: &str = "../target/staticlib";

fn main() {
    println!("cargo::rerun-if-changed=build.rs");
    let source = folder("NETFLOW_PARSER_SRC", DEFAULT_SOURCE).join("variable_versions");
    let out = PathBuf::from(env::var_os("OUT_DIR").expect("cargo sets OUT_DIR"));
    for name in ORIGINALS {
        prepare(&source, name, &out);
    }
    if env::var_os("CARGO_FEATURE_LIVE").is_some() {
        link_port();
    }
}

/// The folder that a variable names, or else the default beside this package.
fn folder(variable: &str, default: &str) -> PathBuf {
    println!("cargo::rerun-if-env-changed={variable}");
    let package = PathBuf::from(env::var_os("CARGO_MANIFEST_DIR").expect("cargo sets this"));
    match env::var_os(variable) {
        Some(chosen) => package.join(chosen),
        None => package.join(default),
    }
}

fn prepare(source: &Path, name: &str, out: &Path) {
    let from = source.join(name);
    println!("cargo::rerun-if-changed={}", from.display());
    let text = fs::read_to_string(&from).unwrap_or_else(|error| {
        panic!(
            "original text {}: {error}; name the folder src of netflow_parser 1.0.6 in \
            NETFLOW_PARSER_SRC",
            from.display()
        )
    });
    fs::write(out.join(name), with_replaced(name, plain_head(&text)))
        .expect("OUT_DIR can be written");
}

/// The lines that the list names for this file are replaced, each of which is there once.
fn with_replaced(name: &str, text: String) -> String {
    let mut prepared = text;
    for line in REPLACED.iter().filter(|line| line.file == name) {
        let found = prepared.lines().filter(|text| *text == line.original).count();
        assert_eq!(found, 1, "{name}: {}", line.original);
        prepared = prepared.replace(line.original, line.here);
    }
    prepared
}

/// `include!` refuses `//!` comments, so those at the head become `//`.
fn plain_head(text: &str) -> String {
    let mut prepared = String::with_capacity(text.len());
    let mut rest = text;
    while let Some(comment) = rest.strip_prefix("//!") {
        let end = comment.find('\n').map_or(comment.len(), |at| at + 1);
        prepared.push_str("//");
        prepared.push_str(&comment[..end]);
        rest = &comment[end..];
    }
    prepared + rest
}

fn link_port() {
    let library = folder("NETFLOW_PENDING_LIB_DIR", DEFAULT_LIBRARY);
    let archive = library.join("libnetflow_pending.a");
    println!("cargo::rerun-if-changed={}", archive.display());
    println!("cargo::rustc-link-search=native={}", library.display());
    println!("cargo::rustc-link-lib=static=netflow_pending");
}
