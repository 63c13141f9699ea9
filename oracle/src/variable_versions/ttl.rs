//! The original `ttl.rs`.

include!(concat!(env!("OUT_DIR"), "/ttl.rs"));
