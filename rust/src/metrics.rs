//! The two pending counters of the original's metrics.

/// What a cache adds to. The original's `CacheMetricsInner` has these two methods and more.
pub trait RecordPending {
    /// Record a flow cached as pending (awaiting template).
    fn record_pending_cached(&mut self);

    /// Record multiple pending flows dropped at once.
    fn record_pending_dropped_n(&mut self, n: u64);
}

/// The two counters alone, for callers with no metrics of their own.
#[derive(Debug, Default, Clone, Copy, PartialEq, Eq)]
pub struct PendingMetrics {
    /// Number of flows cached as pending (awaiting template).
    pub pending_cached: u64,
    /// Number of pending flows dropped (expired or evicted).
    pub pending_dropped: u64,
}

impl RecordPending for PendingMetrics {
    fn record_pending_cached(&mut self) {
        self.pending_cached = self.pending_cached.saturating_add(1);
    }

    fn record_pending_dropped_n(&mut self, n: u64) {
        self.pending_dropped = self.pending_dropped.saturating_add(n);
    }
}
