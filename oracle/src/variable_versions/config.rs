//! The original `config.rs`.

include!(concat!(env!("OUT_DIR"), "/config.rs"));
