//! The ported functions of libnetflow_pending.a, with Rust's types around them.

pub mod cache;
pub mod framing;
// The declarations are those of the crate for users, so that they stand once.
#[path = "../../../rust/src/ffi/functions.rs"]
pub mod functions;

/// What an area for answers holds before a call: a word that is not written must keep it.
pub const UNTOUCHED: [u64; 3] = [0x5EED_0001, 0x5EED_0002, 0x5EED_0003];

/// The words for a person to read, `-` where nothing was written.
pub fn shown(words: [u64; 3]) -> String {
    let word = |at: usize| match words[at] {
        word if word == UNTOUCHED[at] => "-".to_string(),
        word => word.to_string(),
    };
    [word(0), word(1), word(2)].join(" ")
}
