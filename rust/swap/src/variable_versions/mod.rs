//! The original modules, but for `pending_flows` and, with the feature, `output_budget`.

include!(concat!(env!("OUT_DIR"), "/originals.rs"));
pub(crate) mod enterprise_registry;
#[cfg(feature = "output-budget")]
pub(crate) mod output_budget;
pub(crate) mod pending_flows;
