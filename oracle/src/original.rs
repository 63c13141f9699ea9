//! The original's calls, which are private to its crate. Each function makes one call.

use crate::clock::{Instant, with_clock};
use crate::variable_versions::metrics::CacheMetricsInner;
use crate::variable_versions::output_budget::{
    DecodedOutputBudget, measure_fixed_output, measure_variable_output,
};
use crate::variable_versions::pending_flows::{
    PendingFlowCache, PendingFlowEntry, PendingFlowsConfig,
};
use crate::variable_versions::wire::RecordBodyKind;
use std::time::Duration;

/// The limits in document 01's order, the TTL in nanoseconds.
#[derive(Debug, Clone, Copy)]
pub struct Limits {
    pub templates: usize,
    pub bodies: usize,
    pub entry: usize,
    pub total: usize,
    pub ttl: Option<u64>,
}

pub struct Cache {
    cache: PendingFlowCache,
    metrics: CacheMetricsInner,
}

/// What a drain hands out.
pub struct Bodies(Vec<PendingFlowEntry>);

impl Bodies {
    /// So many bodies of one length and clock reading.
    pub fn of(count: usize, length: usize, clock: u64) -> Self {
        let body = || PendingFlowEntry { raw_data: vec![7; length], cached_at: at(clock) };
        Self((0..count).map(|_| body()).collect())
    }

    pub fn len(&self) -> usize {
        self.0.len()
    }

    pub fn is_empty(&self) -> bool {
        self.0.is_empty()
    }

    pub fn drop_last(&mut self) {
        self.0.pop();
    }
}

impl Cache {
    /// None where the limits are refused.
    pub fn open(limits: Limits) -> Option<Self> {
        let config = config(limits);
        PendingFlowCache::validate_config(&config).ok()?;
        let cache = PendingFlowCache::new(config).ok()?;
        Some(Self { cache, metrics: CacheMetricsInner::new() })
    }

    /// The body where it is refused.
    #[inline(never)]
    pub fn offer(&mut self, id: u16, body: Vec<u8>, clock: u64) -> Option<Vec<u8>> {
        with_clock(at(clock), || self.cache.cache(id, body, &mut self.metrics))
    }

    #[inline(never)]
    pub fn drain(&mut self, id: u16, clock: u64) -> Bodies {
        Bodies(with_clock(at(clock), || self.cache.drain(id, &mut self.metrics)))
    }

    #[inline(never)]
    pub fn restore_replay_suffix(&mut self, id: u16, bodies: Bodies) {
        self.cache.restore_replay_suffix(id, bodies.0);
    }

    /// The bodies dropped; none where the limits are refused.
    #[inline(never)]
    pub fn resize(&mut self, limits: Limits) -> Option<u64> {
        self.cache.resize(config(limits), &mut self.metrics).ok()
    }

    #[inline(never)]
    pub fn clear(&mut self) {
        self.cache.clear();
    }

    #[inline(never)]
    pub fn would_accept(&self, id: u16, length: usize, clock: u64) -> bool {
        with_clock(at(clock), || self.cache.would_accept(id, length))
    }

    /// Bodies held, byte total, both counters.
    #[inline(never)]
    pub fn figures(&self) -> [u64; 4] {
        let (bodies, bytes) = (self.cache.count() as u64, self.cache.total_bytes() as u64);
        [bodies, bytes, self.metrics.pending_cached, self.metrics.pending_dropped]
    }
}

fn at(clock: u64) -> Instant {
    Instant { reading: clock, offer: 0 }
}

fn config(limits: Limits) -> PendingFlowsConfig {
    PendingFlowsConfig {
        max_pending_flows: limits.templates,
        max_entries_per_template: limits.bodies,
        max_entry_size_bytes: limits.entry,
        max_total_bytes: limits.total,
        ttl: limits.ttl.map(Duration::from_nanos),
    }
}

/// Values, payload and remainder of a v9 body.
#[inline(never)]
pub fn preflight_v9_fixed(body: &[u8], widths: &[u16], max_records: usize) -> Option<[u64; 3]> {
    let kind = RecordBodyKind::NetFlowV9;
    measure_fixed_output(body, widths, max_records, |width| *width, kind).map(|cost| cost.words())
}

/// The same of an IPFIX body with plain widths.
#[inline(never)]
pub fn preflight_ipfix_fixed(body: &[u8], widths: &[u16], max_records: usize) -> Option<[u64; 3]> {
    let kind = RecordBodyKind::Ipfix;
    measure_fixed_output(body, widths, max_records, |width| *width, kind).map(|cost| cost.words())
}

/// The same of an IPFIX body in which a width of 65,535 means variable.
#[inline(never)]
pub fn preflight_ipfix_variable(
    body: &[u8],
    widths: &[u16],
    max_records: usize,
) -> Option<[u64; 3]> {
    let kind = RecordBodyKind::Ipfix;
    measure_variable_output(body, widths, max_records, |width| *width, kind)
        .map(|cost| cost.words())
}

pub struct Budget(DecodedOutputBudget);

impl Budget {
    pub fn new(max_values: usize, max_payload: usize) -> Self {
        Self(DecodedOutputBudget::new(max_values, max_payload))
    }

    #[inline(never)]
    pub fn reserve(&mut self, values: usize, payload: usize) -> bool {
        self.0.reserve(values, payload).is_ok()
    }

    #[inline(never)]
    pub fn rollback(&mut self, values: usize, payload: usize) {
        self.0.rollback((values, payload));
    }
}
