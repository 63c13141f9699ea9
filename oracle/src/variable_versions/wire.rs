//! The original `wire.rs`.

include!(concat!(env!("OUT_DIR"), "/wire.rs"));
