//! The original Rust text and what is compared with it, for the commands and for other packages.

pub mod budget;
pub mod cache;
mod checks;
mod clock;
pub mod framing;
pub mod numbers;
pub mod original;
#[cfg(feature = "live")]
mod port;
pub mod random;
mod template_store;
mod variable_versions;

#[cfg(feature = "live")]
pub use port::functions;
// The original text names these two at the root of its crate.
use variable_versions::config::{ConfigError, DEFAULT_MAX_RECORDS_PER_FLOWSET};
