//! Writes the module lines of the original's files, which stand beside the repository and are
//! compiled there as they are; `config.rs` is edited by `config.sed` first.

use std::path::{Path, PathBuf};
use std::process::Command;
use std::{env, fs};

/// The files that stay as they are. `output_budget` goes with the feature of that name.
const ORIGINALS: [&str; 5] = ["config", "metrics", "output_budget", "ttl", "wire"];

/// Seen from this package, as oracle/build.rs has it.
const DEFAULT_SOURCE: &str = "../../../shared/docs/src";

fn main() {
    println!("cargo::rerun-if-changed=build.rs");
    println!("cargo::rerun-if-env-changed=NETFLOW_PARSER_SRC");
    let package = PathBuf::from(env::var_os("CARGO_MANIFEST_DIR").expect("cargo sets this"));
    let source = match env::var_os("NETFLOW_PARSER_SRC") {
        Some(chosen) => package.join(chosen),
        None => package.join(DEFAULT_SOURCE),
    };
    let out = PathBuf::from(env::var_os("OUT_DIR").expect("cargo sets OUT_DIR"));
    let mut modules = String::new();
    let swaps_budget = env::var_os("CARGO_FEATURE_OUTPUT_BUDGET").is_some();
    for name in ORIGINALS.into_iter().filter(|name| !(swaps_budget && *name == "output_budget")) {
        let mut file = source.join("variable_versions").join(format!("{name}.rs"));
        assert!(
            file.is_file(),
            "original text {}: name the folder src of netflow_parser 1.0.6 in NETFLOW_PARSER_SRC",
            file.display()
        );
        println!("cargo::rerun-if-changed={}", file.display());
        if name == "config" {
            file = edited(&file, &package.join("config.sed"), out.join("config.rs"));
        }
        modules += &format!("#[path = {:?}]\npub(crate) mod {name};\n", file.display().to_string());
    }
    fs::write(out.join("originals.rs"), modules).expect("OUT_DIR can be written");
}

/// Where the edited text was written.
fn edited(file: &Path, edit: &Path, to: PathBuf) -> PathBuf {
    println!("cargo::rerun-if-changed={}", edit.display());
    let sed = Command::new("sed").arg("-f").arg(edit).arg(file).output().expect("sed can be run");
    assert!(sed.status.success(), "{}", String::from_utf8_lossy(&sed.stderr));
    fs::write(&to, sed.stdout).expect("OUT_DIR can be written");
    to
}
