//! As much of netflow_parser 1.0.6 as there is the text of, with netflow_pending in the place of
//! `pending_flows.rs` and, with the feature `output-budget`, of `output_budget.rs`. The files of
//! these names in `variable_versions/` are the ones to copy, and `config.sed` is the edit of `config.rs`. `try.sh`
//! makes the steps one by one.

#![allow(dead_code)] // The original has more than is run here.

#[cfg(test)]
mod refusals;
#[cfg(test)]
mod replay;
mod template_store;
mod variable_versions;

// The original text names these two at the root of its crate.
#[allow(unused_imports)] // One of them in `output_budget.rs` alone.
use variable_versions::config::{ConfigError, DEFAULT_MAX_RECORDS_PER_FLOWSET};
