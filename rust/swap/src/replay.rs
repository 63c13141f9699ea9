//! The original's `ParserConfig` over a parser that has a pending cache and little else, and a
//! replay as the comments of `output_budget.rs` and `pending_flows.rs` describe it. The original's
//! own parsers are not among the files. Nothing here names netflow_pending: `try.sh` runs it on the
//! original too.

use crate::variable_versions::config::{Config, ConfigError, ParserConfig, ParserFields};
use crate::variable_versions::metrics::CacheMetricsInner;
use crate::variable_versions::output_budget::{
    DecodedOutputBudget, PendingReplayOutcome, measure_fixed_output,
};
use crate::variable_versions::pending_flows::{
    PendingFlowCache, PendingFlowEntry, PendingFlowsConfig,
};
use crate::variable_versions::ttl::TtlConfig;
use crate::variable_versions::wire::RecordBodyKind;
use std::num::NonZeroUsize;
use std::time::Duration;

#[derive(Debug)]
struct Parser {
    pending_flows: Option<PendingFlowCache>,
    metrics: CacheMetricsInner,
    budget: DecodedOutputBudget,
}

impl ParserFields for Parser {
    fn set_max_template_cache_size_field(&mut self, _: usize) {}
    fn set_max_field_count_field(&mut self, _: usize) {}
    fn set_max_template_total_size_field(&mut self, _: usize) {}
    fn set_max_error_sample_size_field(&mut self, _: usize) {}
    fn set_max_records_per_flowset_field(&mut self, _: usize) {}
    fn set_decoded_output_limits_fields(&mut self, values: usize, payload_bytes: usize) {
        self.budget.set_limits(values, payload_bytes);
    }
    fn set_ttl_config_field(&mut self, _: Option<TtlConfig>) {}
    fn pending_flows(&self) -> &Option<PendingFlowCache> {
        &self.pending_flows
    }
    fn pending_flows_mut(&mut self) -> &mut Option<PendingFlowCache> {
        &mut self.pending_flows
    }
    fn metrics_mut(&mut self) -> &mut CacheMetricsInner {
        &mut self.metrics
    }
}

impl ParserConfig for Parser {
    fn resize_template_caches(&mut self, _: NonZeroUsize) {}

    fn set_pending_flows_config(
        &mut self,
        config: Option<PendingFlowsConfig>,
    ) -> Result<(), ConfigError> {
        match (config, &mut self.pending_flows) {
            (Some(config), Some(cache)) => {
                cache.resize(config, &mut self.metrics)?;
            }
            (Some(config), None) => self.pending_flows = Some(PendingFlowCache::new(config)?),
            (None, _) => {
                self.clear_pending_flows();
                self.pending_flows = None;
            }
        }
        Ok(())
    }
}

const WIDTHS: [u16; 2] = [4, 4];
const RECORD: [u8; 8] = [0, 1, 2, 3, 4, 5, 6, 7];

impl Parser {
    fn new(pending: PendingFlowsConfig) -> Result<Self, ConfigError> {
        let mut parser = Self {
            pending_flows: None,
            metrics: CacheMetricsInner::new(),
            budget: DecodedOutputBudget::new(0, 0),
        };
        let mut config = Config::new(100, None);
        config.pending_flows_config = Some(pending);
        config.max_decoded_field_values_per_message = 6;
        config.validate()?;
        parser.add_config(config)?;
        Ok(parser)
    }

    /// A data set of an unknown template.
    fn hold(&mut self, id: u16, body: &[u8]) -> bool {
        let Some(cache) = &mut self.pending_flows else { return false };
        cache.would_accept(id, body.len())
            && cache.cache(id, body.to_vec(), &mut self.metrics).is_none()
    }

    /// The template has come: as many bodies as one message may return, and the rest put back.
    fn replay(&mut self, id: u16) -> Vec<Vec<u8>> {
        self.budget.reset();
        let Some(cache) = &mut self.pending_flows else { return Vec::new() };
        let mut replayed = Vec::new();
        let mut entries = cache.drain(id, &mut self.metrics).into_iter();
        while let Some(entry) = entries.next() {
            match Self::replay_entry(&mut self.budget, &entry) {
                PendingReplayOutcome::Replayed => {
                    self.metrics.record_pending_replayed();
                    replayed.push(entry.raw_data);
                }
                PendingReplayOutcome::Failed => self.metrics.record_pending_replay_failed(),
                PendingReplayOutcome::TemporarilyDoesNotFit => {
                    let rest = std::iter::once(entry).chain(entries).collect();
                    cache.restore_replay_suffix(id, rest);
                    break;
                }
            }
        }
        replayed
    }

    fn replay_entry(
        budget: &mut DecodedOutputBudget,
        entry: &PendingFlowEntry,
    ) -> PendingReplayOutcome {
        let body = entry.raw_data.as_slice();
        let kind = RecordBodyKind::Ipfix;
        let preflight = measure_fixed_output(body, &WIDTHS, 1_024, |width| *width, kind);
        let decoded = budget.materialize_pending(preflight, |scratch| {
            let records = body.chunks_exact(RECORD.len());
            let rest = records.remainder();
            for record in records {
                scratch.reserve(WIDTHS.len(), record.len())?;
            }
            Ok::<_, crate::variable_versions::output_budget::OutputBudgetExceeded>((rest, ()))
        });
        decoded.map_or_else(PendingReplayOutcome::from, |_| PendingReplayOutcome::Replayed)
    }
}

fn limits(templates: usize, bodies: usize) -> PendingFlowsConfig {
    let mut config = PendingFlowsConfig::with_ttl(templates, Duration::from_secs(3_600));
    config.max_entries_per_template = bodies;
    config
}

#[test]
fn holds_and_replays() {
    let mut parser = Parser::new(limits(2, 4)).expect("legal limits");
    assert!(parser.pending_flows_enabled());
    let bodies: Vec<Vec<u8>> = (1..=4).map(|n| [RECORD.to_vec(), vec![n]].concat()).collect();
    for body in &bodies {
        assert!(parser.hold(300, body));
    }
    assert!(!parser.hold(300, &RECORD), "would_accept says no at the cap");
    assert!(parser.hold(301, &RECORD[1..]));
    assert_eq!(parser.pending_flow_count(), 5);

    // Six field values fit one message: three bodies of two.
    assert_eq!(parser.replay(300), bodies[..3]);
    assert_eq!(parser.pending_flow_count(), 2);
    assert_eq!(parser.replay(300), bodies[3..]);
    assert!(parser.replay(301).is_empty(), "no whole record");
    assert!(parser.replay(302).is_empty());
    let metrics = parser.metrics.snapshot();
    assert_eq!((metrics.pending_cached, metrics.pending_dropped), (5, 0));
    assert_eq!((metrics.pending_replayed, metrics.pending_replay_failed), (4, 1));
}

#[test]
fn configures() {
    let mut parser = Parser::new(limits(2, 4)).expect("legal limits");
    for id in [300, 300, 301] {
        assert!(parser.hold(id, &RECORD));
    }
    parser.set_pending_flows_config(Some(limits(2, 1))).expect("legal limits");
    assert_eq!((parser.pending_flow_count(), parser.metrics.pending_dropped), (2, 1));
    parser.clear_pending_flows();
    assert_eq!((parser.pending_flow_count(), parser.metrics.pending_dropped), (0, 3));
    assert!(parser.hold(300, &RECORD));
    parser.set_pending_flows_config(None).expect("nothing to refuse");
    assert_eq!((parser.pending_flows_enabled(), parser.metrics.pending_dropped), (false, 4));
}

#[test]
fn refuses() {
    let refused = |config: PendingFlowsConfig| Parser::new(config).expect_err("refused");
    assert_eq!(refused(limits(0, 1)), ConfigError::InvalidPendingCacheSize(0));
    assert_eq!(refused(limits(1, 0)), ConfigError::InvalidEntriesPerTemplate(0));
    let sizes = |entry, total| PendingFlowsConfig {
        max_entry_size_bytes: entry,
        max_total_bytes: total,
        ..PendingFlowsConfig::default()
    };
    assert_eq!(refused(sizes(65_532, 70_000)), ConfigError::InvalidEntrySize(65_532));
    let total = |max_total_bytes, max_entry_size_bytes| ConfigError::InvalidPendingTotalBytes {
        max_total_bytes,
        max_entry_size_bytes,
    };
    assert_eq!(refused(sizes(10, 0)), total(0, 10));
    assert_eq!(refused(sizes(10, 9)), total(9, 10));
    assert!(Parser::new(PendingFlowsConfig::default()).is_ok());
}
