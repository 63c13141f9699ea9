//! What is read from the words of a cache by docs/LAYOUT.md, with no call: every call tests all
//! of a cache first, so asking for one body after another would take long. The tests hold this
//! to `netflow_pending_figures` and `netflow_pending_place_handed_out`.

use crate::config::PendingFlowsConfig;

const HEADER_WORDS: usize = 64;
const ENTRY_WORDS: usize = 4;
const RECORD_WORDS: usize = 8;

const PENDING_CACHED: usize = 6;
const PENDING_DROPPED: usize = 7;
const TEMPLATES_HELD: usize = 9;
const ENTRIES: usize = 10;
const MAY_PUT_BACK: usize = 11;

/// A body that the last drain handed out.
pub struct HandedOut {
    pub place: usize,
    pub length: usize,
    pub clock: u64,
}

/// The words and bytes that a cache with these limits needs. The limits are legal.
pub fn need(config: &PendingFlowsConfig) -> (usize, usize) {
    let bodies = config.max_pending_flows * config.max_entries_per_template;
    let words = HEADER_WORDS + RECORD_WORDS * config.max_pending_flows + ENTRY_WORDS * bodies;
    (words, config.max_total_bytes)
}

/// `pending_cached` and `pending_dropped`.
pub fn counters(words: &[u64]) -> (u64, u64) {
    (word(words, PENDING_CACHED), word(words, PENDING_DROPPED))
}

/// What may still be put back, oldest first.
pub fn handed_out(words: &[u64]) -> impl Iterator<Item = HandedOut> {
    let label = handed_out_label(words);
    let entries = words.get(HEADER_WORDS..).unwrap_or_default().chunks_exact(ENTRY_WORDS);
    entries.take(word(words, ENTRIES) as usize).filter(move |entry| Some(entry[0]) == label).map(
        |entry| HandedOut { place: entry[1] as usize, length: entry[2] as usize, clock: entry[3] },
    )
}

/// The label of the handed-out template, whose record stands behind the held ones.
fn handed_out_label(words: &[u64]) -> Option<u64> {
    if word(words, MAY_PUT_BACK) == 0 {
        return None;
    }
    let [templates, bodies, held] = [0, 1, TEMPLATES_HELD].map(|at| word(words, at) as usize);
    let entries = templates.checked_mul(bodies)?.checked_mul(ENTRY_WORDS)?;
    let records = words.get(HEADER_WORDS..)?.get(entries..)?;
    records.chunks_exact(RECORD_WORDS).nth(held).map(|record| record[1])
}

fn word(words: &[u64], at: usize) -> u64 {
    words.get(at).copied().unwrap_or_default()
}
