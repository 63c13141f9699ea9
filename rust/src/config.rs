//! The limits of a cache, and what is wrong with limits that are refused.

use crate::numbers::{BAD_BODIES, BAD_ENTRY_SIZE, BAD_TEMPLATES, BAD_TOTAL};
use std::fmt;
use std::time::Duration;

/// Default maximum number of data records to parse per flowset.
pub const DEFAULT_MAX_RECORDS_PER_FLOWSET: usize = 1024;

const DEFAULT_MAX_TOTAL_BYTES: usize = 64 * 1024 * 1024;
const MAX_ENTRY_SIZE_LIMIT: usize = u16::MAX as usize - 4;

/// Configuration for pending flow caching, with the original's fields and defaults.
#[derive(Debug, Clone, PartialEq, Eq)]
pub struct PendingFlowsConfig {
    /// Maximum number of template IDs to track. At most 1,024.
    pub max_pending_flows: usize,
    /// Maximum number of entries per template ID. At most 262,144 over `max_pending_flows`.
    pub max_entries_per_template: usize,
    /// Maximum size in bytes of one entry's raw data. At most 65,531.
    pub max_entry_size_bytes: usize,
    /// Maximum total bytes across all entries. At most 67,108,864.
    pub max_total_bytes: usize,
    /// TTL for pending flows. `None` means that they never expire. One above 2^64 - 1
    /// nanoseconds (584 years) counts as so many.
    pub ttl: Option<Duration>,
}

impl Default for PendingFlowsConfig {
    fn default() -> Self {
        Self {
            max_pending_flows: 256,
            max_entries_per_template: 1024,
            max_entry_size_bytes: MAX_ENTRY_SIZE_LIMIT,
            max_total_bytes: DEFAULT_MAX_TOTAL_BYTES,
            ttl: None,
        }
    }
}

impl PendingFlowsConfig {
    /// The defaults with the given capacity.
    ///
    /// Unlike the original, a capacity above 256 is refused (number 5) unless
    /// `max_entries_per_template` is lowered too: their product may be 262,144.
    pub fn new(max_pending_flows: usize) -> Self {
        Self { max_pending_flows, ..Self::default() }
    }

    /// The defaults with the given capacity and TTL; see [`PendingFlowsConfig::new`].
    pub fn with_ttl(max_pending_flows: usize, ttl: Duration) -> Self {
        Self { ttl: Some(ttl), ..Self::new(max_pending_flows) }
    }
}

/// Why limits are refused, by the original's names and words.
#[derive(Debug, Clone, PartialEq, Eq)]
pub enum ConfigError {
    /// Number 1: pending flow cache size must be greater than 0.
    InvalidPendingCacheSize(usize),
    /// Number 2: pending flow max entries per template must be greater than 0.
    InvalidEntriesPerTemplate(usize),
    /// Number 3: pending flow max entry size must be between 1 and 65531 (u16::MAX - 4).
    InvalidEntrySize(usize),
    /// Number 4: pending flow max_total_bytes must be >= max_entry_size_bytes.
    InvalidPendingTotalBytes {
        /// The limit that is 0 or too low.
        max_total_bytes: usize,
        /// What it must reach.
        max_entry_size_bytes: usize,
    },
    /// Number 5, which the original does not have: no cache is as large as that.
    PendingLimitsTooLarge {
        /// At most 1,024.
        max_pending_flows: usize,
        /// At most 262,144 over `max_pending_flows`.
        max_entries_per_template: usize,
        /// At most 67,108,864.
        max_total_bytes: usize,
    },
    /// Number 9: max records per flowset must be greater than 0.
    InvalidRecordsPerFlowset(usize),
    /// Number 10: decoded field-value message limit must be greater than 0.
    InvalidDecodedFieldValueLimit(usize),
    /// Number 11: decoded field-payload-byte message limit must be greater than 0.
    InvalidDecodedFieldPayloadByteLimit(usize),
}

impl ConfigError {
    /// What numbers 1 to 5 say of these limits.
    pub(crate) fn of_limits(number: u32, config: &PendingFlowsConfig) -> Self {
        match number {
            BAD_TEMPLATES => Self::InvalidPendingCacheSize(config.max_pending_flows),
            BAD_BODIES => Self::InvalidEntriesPerTemplate(config.max_entries_per_template),
            BAD_ENTRY_SIZE => Self::InvalidEntrySize(config.max_entry_size_bytes),
            BAD_TOTAL => Self::InvalidPendingTotalBytes {
                max_total_bytes: config.max_total_bytes,
                max_entry_size_bytes: config.max_entry_size_bytes,
            },
            _ => Self::PendingLimitsTooLarge {
                max_pending_flows: config.max_pending_flows,
                max_entries_per_template: config.max_entries_per_template,
                max_total_bytes: config.max_total_bytes,
            },
        }
    }
}

impl std::error::Error for ConfigError {}

impl fmt::Display for ConfigError {
    fn fmt(&self, f: &mut fmt::Formatter<'_>) -> fmt::Result {
        match self {
            Self::InvalidPendingCacheSize(size) => above_0(f, "pending flow cache size", *size),
            Self::InvalidEntriesPerTemplate(n) => above_0(f, "max entries per template", *n),
            Self::InvalidEntrySize(size) => write!(
                f,
                "Invalid max entry size: {size}. Must be between 1 and 65531 (u16::MAX - 4)."
            ),
            Self::InvalidPendingTotalBytes { max_total_bytes, max_entry_size_bytes } => write!(
                f,
                "Invalid pending flow config: max_total_bytes ({max_total_bytes}) must be >= \
                max_entry_size_bytes ({max_entry_size_bytes})."
            ),
            Self::PendingLimitsTooLarge {
                max_pending_flows,
                max_entries_per_template,
                max_total_bytes,
            } => write!(
                f,
                "Invalid pending flow config: max_pending_flows ({max_pending_flows}) must be <= \
                1024, its product with max_entries_per_template ({max_entries_per_template}) <= \
                262144, and max_total_bytes ({max_total_bytes}) <= 67108864."
            ),
            Self::InvalidRecordsPerFlowset(n) => above_0(f, "max records per flowset", *n),
            Self::InvalidDecodedFieldValueLimit(n) => {
                above_0(f, "max decoded field values per message", *n)
            }
            Self::InvalidDecodedFieldPayloadByteLimit(n) => {
                above_0(f, "max decoded field payload bytes per message", *n)
            }
        }
    }
}

fn above_0(f: &mut fmt::Formatter<'_>, what: &str, figure: usize) -> fmt::Result {
    write!(f, "Invalid {what}: {figure}. Must be greater than 0.")
}
