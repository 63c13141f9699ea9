//! What netflow_pending's `ConfigError` becomes in the tree.

use crate::variable_versions::config::{Config, ConfigError};
use crate::variable_versions::pending_flows::PendingFlowsConfig;
use netflow_pending::ConfigError as Refused;

fn refused(pending: PendingFlowsConfig) -> ConfigError {
    let mut config = Config::new(100, None);
    config.pending_flows_config = Some(pending);
    config.validate().expect_err("refused")
}

/// Number 5, which the original does not have.
#[test]
fn limits_that_no_cache_has() {
    let total =
        |bytes| PendingFlowsConfig { max_total_bytes: bytes, ..PendingFlowsConfig::default() };
    let mut templates = PendingFlowsConfig::new(1_025);
    templates.max_entries_per_template = 1;
    for (config, told) in [
        (total(134_217_728), "max_total_bytes (134217728) <= 67108864"),
        (
            PendingFlowsConfig::new(257),
            "its product with max_entries_per_template (1024) <= 262144",
        ),
        (templates, "max_pending_flows (1025) must be <= 1024"),
    ] {
        let error = refused(config.clone());
        let expected = Refused::PendingLimitsTooLarge {
            max_pending_flows: config.max_pending_flows,
            max_entries_per_template: config.max_entries_per_template,
            max_total_bytes: config.max_total_bytes,
        };
        assert_eq!(error, ConfigError::PendingLimitsTooLarge(expected));
        assert!(error.to_string().contains(told), "{error}");
    }
}

/// The words of an error are the original's.
#[test]
fn words() {
    for error in [
        Refused::InvalidPendingCacheSize(0),
        Refused::InvalidEntriesPerTemplate(0),
        Refused::InvalidEntrySize(65_532),
        Refused::InvalidPendingTotalBytes { max_total_bytes: 1, max_entry_size_bytes: 2 },
        Refused::InvalidRecordsPerFlowset(0),
        Refused::InvalidDecodedFieldValueLimit(0),
        Refused::InvalidDecodedFieldPayloadByteLimit(0),
    ] {
        assert_eq!(error.to_string(), ConfigError::from(error).to_string());
    }
}
