//! The original modules under their own paths, which the original text names.
#![allow(dead_code)] // The original has more than is run here.

pub(crate) mod config;
pub(crate) mod enterprise_registry;
pub(crate) mod metrics;
pub(crate) mod output_budget;
pub(crate) mod pending_flows;
pub(crate) mod ttl;
pub(crate) mod wire;
