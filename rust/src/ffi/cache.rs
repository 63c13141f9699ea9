//! The cache.

use super::functions::{
    netflow_pending_cache, netflow_pending_clear, netflow_pending_drain, netflow_pending_figures,
    netflow_pending_open, netflow_pending_place_handed_out, netflow_pending_resize,
    netflow_pending_restore_replay_suffix, netflow_pending_validate_config,
    netflow_pending_would_accept,
};
use super::{Number, answered};
use crate::config::PendingFlowsConfig;
use std::time::Duration;

/// Nothing, or 1 to 5, where 5 is by these lengths of the areas too.
pub fn validate_config(
    config: &PendingFlowsConfig,
    words_len: usize,
    bytes_len: usize,
) -> Result<(), Number> {
    let number = netflow_pending_validate_config(
        words_len,
        bytes_len,
        config.max_pending_flows,
        config.max_entries_per_template,
        config.max_entry_size_bytes,
        config.max_total_bytes,
    );
    answered(number, ())
}

/// Whether there is a TTL, and its nanoseconds as far as 64 bits go.
fn ttl_words(ttl: Option<Duration>) -> (u32, u64) {
    ttl.map_or((0, 0), |ttl| (1, nanoseconds(ttl)))
}

/// As far as 64 bits go, which is 584 years.
pub fn nanoseconds(duration: Duration) -> u64 {
    u64::try_from(duration.as_nanos()).unwrap_or(u64::MAX)
}

/// The two areas of a cache. Whatever they hold, every call is defined.
pub struct Areas {
    pub words: Vec<u64>,
    pub bytes: Vec<u8>,
}

impl Areas {
    /// Makes an empty cache of whatever is here; or 1 to 5.
    pub fn open(&mut self, config: &PendingFlowsConfig) -> Result<(), Number> {
        let (has_ttl, ttl) = ttl_words(config.ttl);
        // SAFETY: see the head of `ffi`.
        let number = unsafe {
            netflow_pending_open(
                self.words.as_mut_ptr(),
                self.words.len(),
                self.bytes.as_ptr(),
                self.bytes.len(),
                config.max_pending_flows,
                config.max_entries_per_template,
                config.max_entry_size_bytes,
                config.max_total_bytes,
                has_ttl,
                ttl,
            )
        };
        answered(number, ())
    }

    /// Nothing, or 28, 6 or 20.
    pub fn cache(&mut self, id: u16, body: &[u8], clock: u64) -> Result<(), Number> {
        // SAFETY: see the head of `ffi`. The areas are borrowed for writing, so the body
        // is no part of them.
        let number = unsafe {
            netflow_pending_cache(
                self.words.as_mut_ptr(),
                self.words.len(),
                self.bytes.as_mut_ptr(),
                self.bytes.len(),
                id,
                body.as_ptr(),
                body.len(),
                clock,
            )
        };
        answered(number, ())
    }

    /// How many bodies are handed out, or 28.
    pub fn drain(&mut self, id: u16, clock: u64) -> Result<u64, Number> {
        let mut handed_out = 0;
        // SAFETY: see the head of `ffi`.
        let number = unsafe {
            netflow_pending_drain(
                self.words.as_mut_ptr(),
                self.words.len(),
                self.bytes.as_ptr(),
                self.bytes.len(),
                id,
                clock,
                &mut handed_out,
            )
        };
        answered(number, handed_out)
    }

    /// Nothing, or 28 or 25.
    pub fn restore_replay_suffix(&mut self, id: u16, count: usize) -> Result<(), Number> {
        // SAFETY: see the head of `ffi`.
        let number = unsafe {
            netflow_pending_restore_replay_suffix(
                self.words.as_mut_ptr(),
                self.words.len(),
                self.bytes.as_ptr(),
                self.bytes.len(),
                id,
                count,
            )
        };
        answered(number, ())
    }

    /// How many bodies are dropped, or 28 or 1 to 5.
    pub fn resize(&mut self, config: &PendingFlowsConfig) -> Result<u64, Number> {
        let (has_ttl, ttl) = ttl_words(config.ttl);
        let mut dropped = 0;
        // SAFETY: see the head of `ffi`.
        let number = unsafe {
            netflow_pending_resize(
                self.words.as_mut_ptr(),
                self.words.len(),
                self.bytes.as_mut_ptr(),
                self.bytes.len(),
                config.max_pending_flows,
                config.max_entries_per_template,
                config.max_entry_size_bytes,
                config.max_total_bytes,
                has_ttl,
                ttl,
                &mut dropped,
            )
        };
        answered(number, dropped)
    }

    /// Nothing, or 28.
    pub fn clear(&mut self) -> Result<(), Number> {
        // SAFETY: see the head of `ffi`.
        let number = unsafe {
            netflow_pending_clear(
                self.words.as_mut_ptr(),
                self.words.len(),
                self.bytes.as_ptr(),
                self.bytes.len(),
            )
        };
        answered(number, ())
    }

    /// Yes or no, or 28.
    pub fn would_accept(&self, id: u16, length: usize, clock: u64) -> Result<bool, Number> {
        let mut accepts = 0;
        // SAFETY: see the head of `ffi`.
        let number = unsafe {
            netflow_pending_would_accept(
                self.words.as_ptr(),
                self.words.len(),
                self.bytes.as_ptr(),
                self.bytes.len(),
                id,
                length,
                clock,
                &mut accepts,
            )
        };
        answered(number, accepts == 1)
    }

    /// Templates, bodies and bytes held, both counters, bodies handed out; or 28.
    pub fn figures(&self) -> Result<[u64; 6], Number> {
        let mut figures = [0; 6];
        // SAFETY: see the head of `ffi`; the figures have their six words.
        let number = unsafe {
            netflow_pending_figures(
                self.words.as_ptr(),
                self.words.len(),
                self.bytes.as_ptr(),
                self.bytes.len(),
                &mut figures,
            )
        };
        answered(number, figures)
    }

    /// A handed-out body's place and length; or 28 or 27.
    pub fn place_handed_out(&self, number: usize) -> Result<[u64; 2], Number> {
        let mut place = [0; 2];
        // SAFETY: see the head of `ffi`; the place has its two words.
        let number = unsafe {
            netflow_pending_place_handed_out(
                self.words.as_ptr(),
                self.words.len(),
                self.bytes.as_ptr(),
                self.bytes.len(),
                number,
                &mut place,
            )
        };
        answered(number, place)
    }
}
