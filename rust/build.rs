//! Finds libnetflow_pending.a, which `tools/staticlib` writes.

use std::env;
use std::path::PathBuf;

/// Seen from this package.
const DEFAULT_FOLDER: &str = "../target/staticlib";

fn main() {
    println!("cargo::rerun-if-changed=build.rs");
    println!("cargo::rerun-if-env-changed=NETFLOW_PENDING_LIB_DIR");
    let package = PathBuf::from(env::var_os("CARGO_MANIFEST_DIR").expect("cargo sets this"));
    let folder = match env::var_os("NETFLOW_PENDING_LIB_DIR") {
        Some(chosen) => package.join(chosen),
        None => package.join(DEFAULT_FOLDER),
    };
    let archive = folder.join("libnetflow_pending.a");
    println!("cargo::rerun-if-changed={}", archive.display());
    assert!(
        archive.is_file(),
        "{} is not there: run `tools/staticlib`, or name its folder in \
        NETFLOW_PENDING_LIB_DIR",
        archive.display()
    );
    println!("cargo::rustc-link-search=native={}", folder.display());
    println!("cargo::rustc-link-lib=static=netflow_pending");
}
