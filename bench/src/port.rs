//! The proved library's functions, each with Rust's types around it and nothing else.

use oracle::functions::{
    netflow_budget_new, netflow_budget_reserve, netflow_budget_rollback, netflow_pending_cache,
    netflow_pending_clear, netflow_pending_drain, netflow_pending_figures, netflow_pending_open,
    netflow_pending_place_handed_out, netflow_pending_resize,
    netflow_pending_restore_replay_suffix, netflow_pending_would_accept,
    netflow_preflight_ipfix_fixed, netflow_preflight_ipfix_variable, netflow_preflight_v9_fixed,
};
use oracle::original::Limits;

/// Takes a body, widths and a record limit, and writes three words.
pub type Preflight =
    unsafe extern "C" fn(*const u8, usize, *const u16, usize, usize, *mut [u64; 3]) -> u32;

pub const V9_FIXED: Preflight = netflow_preflight_v9_fixed;
pub const IPFIX_FIXED: Preflight = netflow_preflight_ipfix_fixed;
pub const IPFIX_VARIABLE: Preflight = netflow_preflight_ipfix_variable;

// SAFETY of all calls below: every slice lives through the call and comes with its length, and
// what is written does not overlap anything else.

/// The number; the cost stays where the library wrote it.
#[inline(always)]
pub fn preflight(
    function: Preflight,
    body: &[u8],
    widths: &[u16],
    limit: usize,
    cost: &mut [u64; 3],
) -> u32 {
    unsafe {
        let (body, body_len) = (body.as_ptr(), body.len());
        let (widths, widths_len) = (widths.as_ptr(), widths.len());
        function(body, body_len, widths, widths_len, limit, cost)
    }
}

fn ttl_words(limits: Limits) -> (u32, u64) {
    (u32::from(limits.ttl.is_some()), limits.ttl.unwrap_or(0))
}

#[inline]
pub fn open(words: &mut [u64], bytes: &[u8], limits: Limits) -> u32 {
    let Limits { templates, bodies, entry, total, .. } = limits;
    let (has_ttl, ttl) = ttl_words(limits);
    let (words, words_len) = (words.as_mut_ptr(), words.len());
    let (bytes, bytes_len) = (bytes.as_ptr(), bytes.len());
    unsafe {
        netflow_pending_open(
            words, words_len, bytes, bytes_len, templates, bodies, entry, total, has_ttl, ttl,
        )
    }
}

#[inline]
pub fn offer(words: &mut [u64], bytes: &mut [u8], id: u16, body: &[u8], clock: u64) -> u32 {
    let (words, words_len) = (words.as_mut_ptr(), words.len());
    let (bytes, bytes_len) = (bytes.as_mut_ptr(), bytes.len());
    let (body, body_len) = (body.as_ptr(), body.len());
    unsafe { netflow_pending_cache(words, words_len, bytes, bytes_len, id, body, body_len, clock) }
}

#[inline]
pub fn drain(words: &mut [u64], bytes: &[u8], id: u16, clock: u64) -> (u32, u64) {
    let mut handed = 0;
    let (words, words_len) = (words.as_mut_ptr(), words.len());
    let (bytes, bytes_len) = (bytes.as_ptr(), bytes.len());
    let number = unsafe {
        netflow_pending_drain(words, words_len, bytes, bytes_len, id, clock, &mut handed)
    };
    (number, handed)
}

#[inline]
pub fn put_back(words: &mut [u64], bytes: &[u8], id: u16, count: usize) -> u32 {
    let (words, words_len) = (words.as_mut_ptr(), words.len());
    let (bytes, bytes_len) = (bytes.as_ptr(), bytes.len());
    unsafe { netflow_pending_restore_replay_suffix(words, words_len, bytes, bytes_len, id, count) }
}

#[inline]
pub fn resize(words: &mut [u64], bytes: &mut [u8], limits: Limits) -> (u32, u64) {
    let mut dropped = 0;
    let Limits { templates, bodies, entry, total, .. } = limits;
    let (has_ttl, ttl) = ttl_words(limits);
    let (words, words_len) = (words.as_mut_ptr(), words.len());
    let (bytes, bytes_len) = (bytes.as_mut_ptr(), bytes.len());
    let number = unsafe {
        netflow_pending_resize(
            words,
            words_len,
            bytes,
            bytes_len,
            templates,
            bodies,
            entry,
            total,
            has_ttl,
            ttl,
            &mut dropped,
        )
    };
    (number, dropped)
}

#[inline]
pub fn clear(words: &mut [u64], bytes: &[u8]) -> u32 {
    let (words, words_len) = (words.as_mut_ptr(), words.len());
    unsafe { netflow_pending_clear(words, words_len, bytes.as_ptr(), bytes.len()) }
}

#[inline]
pub fn would_accept(words: &[u64], bytes: &[u8], id: u16, length: usize, clock: u64) -> (u32, u64) {
    let mut accepts = 0;
    let (words, words_len) = (words.as_ptr(), words.len());
    let (bytes, bytes_len) = (bytes.as_ptr(), bytes.len());
    let number = unsafe {
        netflow_pending_would_accept(
            words,
            words_len,
            bytes,
            bytes_len,
            id,
            length,
            clock,
            &mut accepts,
        )
    };
    (number, accepts)
}

/// Templates, bodies, bytes held, cached, dropped, bodies handed out.
#[inline]
pub fn figures(words: &[u64], bytes: &[u8]) -> (u32, [u64; 6]) {
    let mut figures = [0; 6];
    let (words, words_len) = (words.as_ptr(), words.len());
    let (bytes, bytes_len) = (bytes.as_ptr(), bytes.len());
    let number =
        unsafe { netflow_pending_figures(words, words_len, bytes, bytes_len, &mut figures) };
    (number, figures)
}

#[inline]
pub fn place_handed_out(words: &[u64], bytes: &[u8], number: usize) -> (u32, [u64; 2]) {
    let mut place = [0; 2];
    let (words, words_len) = (words.as_ptr(), words.len());
    let (bytes, bytes_len) = (bytes.as_ptr(), bytes.len());
    let answer = unsafe {
        netflow_pending_place_handed_out(words, words_len, bytes, bytes_len, number, &mut place)
    };
    (answer, place)
}

#[inline(always)]
pub fn budget_new(budget: &mut [u64; 7], max_values: u64, max_payload: u64) -> u32 {
    unsafe { netflow_budget_new(budget, max_values, max_payload) }
}

#[inline(always)]
pub fn reserve(budget: &mut [u64; 7], values: u64, payload: u64) -> u32 {
    let mut excess = [0; 3];
    unsafe { netflow_budget_reserve(budget, values, payload, &mut excess) }
}

#[inline(always)]
pub fn rollback(budget: &mut [u64; 7], values: u64, payload: u64) -> u32 {
    unsafe { netflow_budget_rollback(budget, values, payload) }
}
