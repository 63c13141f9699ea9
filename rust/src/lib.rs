//! The pending flow cache, the output preflight and the decoded-output budget of netflow_parser
//! 1.0.6 by their names there, over the functions of `libnetflow_pending.a`, which are proved.
//!
//! What is proved is the archive. This crate owns the memory that the archive works in, turns
//! `Vec`, `Duration` and `Instant` into slices and counts, and document 01's numbers into the
//! original's answers. Where a method cannot mean quite the same as the original's, its comment
//! says so under "Unlike the original".
//!
//! ```
//! use netflow_pending::{PendingFlowCache, PendingFlowsConfig, PendingMetrics};
//! use std::time::Duration;
//!
//! let mut config = PendingFlowsConfig::with_ttl(2, Duration::from_secs(60));
//! config.max_entries_per_template = 2;
//! let mut cache = PendingFlowCache::new(config)?;
//! let mut metrics = PendingMetrics::default(); // or your own, by the trait RecordPending
//! assert!(cache.would_accept(300, 6));
//! assert_eq!(cache.cache(300, vec![1; 6], &mut metrics), None);
//! let entries = cache.drain(300, &mut metrics); // the template came
//! assert_eq!(entries[0].raw_data, [1; 6]);
//! cache.restore_replay_suffix(300, entries); // the message is full: for the next one
//! assert_eq!((cache.count(), metrics.pending_dropped), (1, 0));
//! # Ok::<(), netflow_pending::ConfigError>(())
//! ```

#![deny(missing_docs)]
#![deny(unsafe_code)]

// Counts pass between usize and 64 bits with no loss.
const _: () = assert!(usize::BITS == 64);

mod config;
#[allow(unsafe_code)]
mod ffi;
mod layout;
mod metrics;
mod numbers;
mod output_budget;
mod pending_flows;
mod preflight;

pub use config::{ConfigError, DEFAULT_MAX_RECORDS_PER_FLOWSET, PendingFlowsConfig};
pub use metrics::{PendingMetrics, RecordPending};
pub use output_budget::{
    DEFAULT_MAX_DECODED_FIELD_PAYLOAD_BYTES_PER_MESSAGE,
    DEFAULT_MAX_DECODED_FIELD_VALUES_PER_MESSAGE, DecodedOutputBudget, DecodedOutputLimit,
    DecodedOutputLimits, OutputBudgetExceeded, PendingOutputError, PendingReplayOutcome,
};
pub use pending_flows::{Figures, PendingFlowCache, PendingFlowEntry};
pub use preflight::{
    PendingOutputPreflight, RecordBodyKind, measure_fixed_output, measure_fixed_widths,
    measure_variable_output,
};
