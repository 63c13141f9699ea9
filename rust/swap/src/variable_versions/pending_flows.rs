//! Pending flow cache for flows arriving before their template: that of netflow_pending.

use super::config::ConfigError;
use super::metrics::CacheMetricsInner;
use netflow_pending::RecordPending;

pub use netflow_pending::PendingFlowsConfig;
#[allow(unused_imports)]
pub(crate) use netflow_pending::{PendingFlowCache, PendingFlowEntry};

impl RecordPending for CacheMetricsInner {
    fn record_pending_cached(&mut self) {
        CacheMetricsInner::record_pending_cached(self);
    }

    fn record_pending_dropped_n(&mut self, n: u64) {
        CacheMetricsInner::record_pending_dropped_n(self, n);
    }
}

impl From<netflow_pending::ConfigError> for ConfigError {
    fn from(error: netflow_pending::ConfigError) -> Self {
        use netflow_pending::ConfigError as Refused;
        match error {
            Refused::InvalidPendingCacheSize(size) => Self::InvalidPendingCacheSize(size),
            Refused::InvalidEntriesPerTemplate(count) => Self::InvalidEntriesPerTemplate(count),
            Refused::InvalidEntrySize(size) => Self::InvalidEntrySize(size),
            Refused::InvalidPendingTotalBytes { max_total_bytes, max_entry_size_bytes } => {
                Self::InvalidPendingTotalBytes { max_total_bytes, max_entry_size_bytes }
            }
            Refused::PendingLimitsTooLarge { .. } => Self::PendingLimitsTooLarge(error),
            Refused::InvalidRecordsPerFlowset(count) => Self::InvalidRecordsPerFlowset(count),
            Refused::InvalidDecodedFieldValueLimit(count) => {
                Self::InvalidDecodedFieldValueLimit(count)
            }
            Refused::InvalidDecodedFieldPayloadByteLimit(bytes) => {
                Self::InvalidDecodedFieldPayloadByteLimit(bytes)
            }
        }
    }
}
