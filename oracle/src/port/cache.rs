//! The ported cache.

use super::functions::{
    netflow_pending_cache, netflow_pending_clear, netflow_pending_drain, netflow_pending_figures,
    netflow_pending_open, netflow_pending_place_handed_out, netflow_pending_resize,
    netflow_pending_restore_replay_suffix, netflow_pending_validate_config,
    netflow_pending_would_accept,
};
use crate::cache::call::{Answer, Call};
use crate::cache::limits::{Areas, Limits};
use crate::numbers::DONE;

/// What an area for values holds before a call: a value that is not written must keep it.
const UNTOUCHED: u64 = 0x5EED_0004;

/// Makes the call in these areas; an offer is of this body. A reading of a handed-out body
/// answers its length, see `place_handed_out`.
pub fn answer(call: &Call, body: &[u8], words: &mut [u64], bytes: &mut [u8]) -> Answer {
    if let Call::ReadHandedOut { number } = *call {
        return match place_handed_out(number, words, bytes) {
            Ok([_, length]) => Answer::value(length),
            Err(number) => Answer::number(number),
        };
    }
    let (words_len, bytes_len) = (words.len(), bytes.len());
    let (words, bytes) = (words.as_mut_ptr(), bytes.as_mut_ptr());
    let mut value = UNTOUCHED;
    // SAFETY: all slices live through the call, come with their lengths and do not overlap.
    let number = unsafe {
        match *call {
            Call::Open { limits, .. } => {
                let ([t, b, e, m], has_ttl, ttl) = figures_of(&limits);
                netflow_pending_open(words, words_len, bytes, bytes_len, t, b, e, m, has_ttl, ttl)
            }
            Call::Offer { id, clock, .. } => {
                let (body, body_len) = (body.as_ptr(), body.len());
                netflow_pending_cache(words, words_len, bytes, bytes_len, id, body, body_len, clock)
            }
            Call::Drain { id, clock } => {
                netflow_pending_drain(words, words_len, bytes, bytes_len, id, clock, &mut value)
            }
            Call::PutBack { id, n } => {
                let n = n as usize;
                netflow_pending_restore_replay_suffix(words, words_len, bytes, bytes_len, id, n)
            }
            Call::Resize(limits) => {
                let ([t, b, e, m], has_ttl, ttl) = figures_of(&limits);
                netflow_pending_resize(
                    words, words_len, bytes, bytes_len, t, b, e, m, has_ttl, ttl, &mut value,
                )
            }
            Call::Clear => netflow_pending_clear(words, words_len, bytes, bytes_len),
            Call::WouldAccept { id, length, clock } => {
                let length = length as usize;
                netflow_pending_would_accept(
                    words, words_len, bytes, bytes_len, id, length, clock, &mut value,
                )
            }
            Call::ReadHandedOut { .. } => unreachable!("answered above"),
        }
    };
    let has_value = matches!(call, Call::Drain { .. } | Call::Resize(_) | Call::WouldAccept { .. });
    Answer { number, value: if has_value { written(number, [value])[0] } else { 0 } }
}

/// A handed-out body's place and length, or the number.
pub fn place_handed_out(number: u64, words: &[u64], bytes: &[u8]) -> Result<[u64; 2], u32> {
    let mut place = [UNTOUCHED; 2];
    // SAFETY: as in `answer`; two words are written.
    let refused = unsafe {
        netflow_pending_place_handed_out(
            words.as_ptr(),
            words.len(),
            bytes.as_ptr(),
            bytes.len(),
            number as usize,
            &mut place,
        )
    };
    values(refused, place)
}

/// Templates, bodies and bytes held, both counters, bodies handed out; or the number.
pub fn figures(words: &[u64], bytes: &[u8]) -> Result<[u64; 6], u32> {
    let mut figures = [UNTOUCHED; 6];
    // SAFETY: as in `answer`; six words are written.
    let refused = unsafe {
        netflow_pending_figures(
            words.as_ptr(),
            words.len(),
            bytes.as_ptr(),
            bytes.len(),
            &mut figures,
        )
    };
    values(refused, figures)
}

/// The number of these limits for such areas.
pub fn validate_config(limits: &Limits, areas: Areas) -> u32 {
    let ([t, b, e, m], ..) = figures_of(limits);
    let (words, bytes) = (areas.words as usize, areas.bytes as usize);
    netflow_pending_validate_config(words, bytes, t, b, e, m)
}

fn figures_of(limits: &Limits) -> ([usize; 4], u32, u64) {
    let [t, b, e, m, set, ttl] = limits.row_words();
    ([t, b, e, m].map(|figure| figure as usize), set as u32, ttl)
}

fn values<const N: usize>(number: u32, values: [u64; N]) -> Result<[u64; N], u32> {
    let values = written(number, values);
    if number == DONE { Ok(values) } else { Err(number) }
}

/// The values beside a 0. Beside another number none may be written, or the run stops.
fn written<const N: usize>(number: u32, values: [u64; N]) -> [u64; N] {
    if number == DONE {
        return values;
    }
    assert_eq!(values, [UNTOUCHED; N], "number {number} beside values that were written");
    [0; N]
}
