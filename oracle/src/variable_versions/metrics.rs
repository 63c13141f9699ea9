//! The original `metrics.rs`.

include!(concat!(env!("OUT_DIR"), "/metrics.rs"));
