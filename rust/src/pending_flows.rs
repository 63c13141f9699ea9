//! The pending flow cache.

use crate::config::{ConfigError, PendingFlowsConfig};
use crate::ffi::{self, Areas, nanoseconds};
use crate::layout::{self, HandedOut};
use crate::metrics::RecordPending;
use crate::numbers::DAMAGED;
use std::fmt;
use std::time::{Duration, Instant};

#[cfg(test)]
mod damaged;

/// A drained entry: raw data with the time at which it was cached.
#[derive(Debug, Clone, PartialEq, Eq)]
pub struct PendingFlowEntry {
    /// The body, without the 4-byte header of its flowset.
    pub raw_data: Vec<u8>,
    /// When it was cached, by the clock of that call.
    pub cached_at: Instant,
}

/// What a cache holds, and what it has counted.
#[derive(Debug, Clone, Copy, PartialEq, Eq)]
pub struct Figures {
    /// Template IDs that are held.
    pub templates: usize,
    /// Bodies that are held, over all template IDs.
    pub bodies: usize,
    /// The sum of their lengths.
    pub bytes: usize,
    /// See [`PendingFlowCache::pending_cached`].
    pub pending_cached: u64,
    /// See [`PendingFlowCache::pending_dropped`].
    pub pending_dropped: u64,
    /// Bodies of the last drain that may still be put back.
    pub handed_out: usize,
}

/// LRU cache for pending flows keyed by template ID.
///
/// It owns the two areas that the proved functions work in, as large as its limits ask: 8 bytes
/// for each of 64 + 8 × templates + 4 × (templates × entries per template) words, and
/// `max_total_bytes`. At the default limits that is 72 MiB, in zeroed pages that take memory as
/// they are first used.
///
/// The clock of a call is the time since the cache was made, in nanoseconds, read once per call
/// (the original reads it for each entry). Calls by name and calls `_at` a clock of one's own
/// should not be mixed on one cache.
///
/// Every call goes through all entries (see number 28), so its time grows with what is held, where
/// most of the original's look at one template. docs/BENCHMARKS.md has the figures.
///
/// # Number 28
///
/// Every proved call first tests whether the areas hold a well-formed cache, and answers 28 and
/// changes nothing where not. Safe code cannot bring that about: nobody else has the areas, and
/// every call is proved to leave a well-formed cache. Should it happen all the same (memory
/// overwritten by unsafe code elsewhere), nothing panics: [`cache`](Self::cache) gives the data
/// back and counts a drop in the metrics, [`would_accept`](Self::would_accept) says no,
/// [`drain`](Self::drain) hands out nothing, a put-back is refused and [`count`](Self::count) is
/// 0, until [`clear`](Self::clear) or [`resize`](Self::resize) opens an empty cache in the areas.
/// [`is_damaged`](Self::is_damaged) tells.
pub struct PendingFlowCache {
    areas: Areas,
    config: PendingFlowsConfig,
    /// Clock 0.
    origin: Instant,
    /// Entries that `restore_replay_suffix` refused.
    refused_put_backs: u64,
}

impl PendingFlowCache {
    /// Validates pending flow configuration without allocating.
    ///
    /// # Unlike the original
    /// Limits that no cache can have are refused too ([`ConfigError::PendingLimitsTooLarge`],
    /// number 5): `max_pending_flows` above 1,024, its product with `max_entries_per_template`
    /// above 262,144, or `max_total_bytes` above 67,108,864. The original's defaults are within.
    pub fn validate_config(config: &PendingFlowsConfig) -> Result<(), ConfigError> {
        ffi::validate_config(config, usize::MAX, usize::MAX)
            .map_err(|number| ConfigError::of_limits(number, config))
    }

    /// Create a new PendingFlowCache from the given configuration.
    ///
    /// # Errors
    /// All that [`validate_config`](Self::validate_config) refuses.
    ///
    /// # Unlike the original
    /// The original's refuses a `max_pending_flows` of 0 only, and leaves the rest to
    /// `validate_config`. The areas are allocated here, and not entry by entry.
    pub fn new(config: PendingFlowsConfig) -> Result<Self, ConfigError> {
        Self::validate_config(&config)?;
        let (words, bytes) = layout::need(&config);
        let mut areas = Areas { words: vec![0; words], bytes: vec![0; bytes] };
        areas.open(&config).map_err(|number| ConfigError::of_limits(number, &config))?;
        Ok(Self { areas, config, origin: Instant::now(), refused_put_backs: 0 })
    }

    /// Best-effort check whether the cache would accept a new entry for `template_id` with
    /// `data_len` bytes. Changes nothing. Yes binds a [`cache`](Self::cache) at the same clock;
    /// no does not.
    pub fn would_accept(&self, template_id: u16, data_len: usize) -> bool {
        self.would_accept_at(template_id, data_len, self.clock())
    }

    /// [`would_accept`](Self::would_accept) at a clock of one's own.
    pub fn would_accept_at(&self, template_id: u16, data_len: usize, clock: u64) -> bool {
        self.areas.would_accept(template_id, data_len, clock).unwrap_or(false)
    }

    /// Cache a pending flow for later replay when its template arrives.
    ///
    /// Returns `None` if the entry was cached, and `Some(raw_data)` if it was dropped (numbers 6
    /// and 20), so that the caller can keep the data.
    pub fn cache(
        &mut self,
        template_id: u16,
        raw_data: Vec<u8>,
        metrics: &mut impl RecordPending,
    ) -> Option<Vec<u8>> {
        self.cache_at(template_id, raw_data, self.clock(), metrics)
    }

    /// [`cache`](Self::cache) at a clock of one's own.
    pub fn cache_at(
        &mut self,
        template_id: u16,
        raw_data: Vec<u8>,
        clock: u64,
        metrics: &mut impl RecordPending,
    ) -> Option<Vec<u8>> {
        let answer = self.record(metrics, |areas| areas.cache(template_id, &raw_data, clock));
        if answer == Err(DAMAGED) {
            metrics.record_pending_dropped_n(1);
        }
        answer.is_err().then_some(raw_data)
    }

    /// Drain pending flows for a given template ID, filtering expired entries.
    ///
    /// Hands out copies, oldest first.
    ///
    /// # Unlike the original
    /// The original moves its entries out. Here a put-back needs the bodies themselves, which stay
    /// in the areas until it can come no more.
    pub fn drain(
        &mut self,
        template_id: u16,
        metrics: &mut impl RecordPending,
    ) -> Vec<PendingFlowEntry> {
        self.drain_at(template_id, self.clock(), metrics)
    }

    /// [`drain`](Self::drain) at a clock of one's own.
    pub fn drain_at(
        &mut self,
        template_id: u16,
        clock: u64,
        metrics: &mut impl RecordPending,
    ) -> Vec<PendingFlowEntry> {
        match self.record(metrics, |areas| areas.drain(template_id, clock)) {
            Ok(_) => layout::handed_out(&self.areas.words).map(|body| self.entry(&body)).collect(),
            Err(_) => Vec::new(),
        }
    }

    /// Restore an unprocessed FIFO suffix of what the last [`drain`](Self::drain) of this ID
    /// handed out. Changes no counter.
    ///
    /// # Unlike the original
    /// The original takes any entries under any ID, and loses others in doing so. Here they must
    /// be the last ones of the last drain, unaltered, with no `cache`, `drain`, `resize`, `clear`
    /// or put-back since; a `cache` that was refused for its size, a refused resize and a put-back
    /// that was refused or of no entries do not count. Any others are refused (number 25): they are freed and nothing changes. They were
    /// handed out and are no drops, so neither the metrics nor `pending_dropped` rise. As this
    /// method cannot say so, [`refused_put_backs`](Self::refused_put_backs) counts them;
    /// [`try_restore_replay_suffix`](Self::try_restore_replay_suffix) gives them back.
    pub fn restore_replay_suffix(&mut self, template_id: u16, entries: Vec<PendingFlowEntry>) {
        if let Err(refused) = self.try_restore_replay_suffix(template_id, entries) {
            self.refused_put_backs = self.refused_put_backs.saturating_add(refused.len() as u64);
        }
    }

    /// [`restore_replay_suffix`](Self::restore_replay_suffix) that gives refused entries back, and
    /// does not count them in [`refused_put_backs`](Self::refused_put_backs).
    pub fn try_restore_replay_suffix(
        &mut self,
        template_id: u16,
        entries: Vec<PendingFlowEntry>,
    ) -> Result<(), Vec<PendingFlowEntry>> {
        let count = entries.len();
        if !self.is_suffix_handed_out(&entries)
            || self.areas.restore_replay_suffix(template_id, count).is_err()
        {
            return Err(entries);
        }
        Ok(())
    }

    /// Returns the total number of pending flow entries across all template IDs.
    pub fn count(&self) -> usize {
        self.figures().map_or(0, |figures| figures.bodies)
    }

    /// Does nothing: the byte total is always the sum of the entry sizes.
    pub fn recalculate_total_bytes(&mut self) {}

    /// Clear all pending flows.
    ///
    /// Callers are responsible for recording dropped metrics via
    /// `metrics.record_pending_dropped_n(cache.count())` before calling this, as in the original:
    /// counters stay as they are.
    pub fn clear(&mut self) {
        if self.areas.clear().is_err() {
            let opened = self.areas.open(&self.config);
            debug_assert_eq!(opened, Ok(()), "the limits in force are legal for the areas");
        }
    }

    /// Resize the cache, recording `pending_dropped` for every entry that the new limits leave no
    /// room for. Returns how many these are.
    ///
    /// # Errors
    /// All that [`validate_config`](Self::validate_config) refuses. Nothing changes then.
    ///
    /// # Unlike the original
    /// Number 5, as in [`validate_config`](Self::validate_config). Areas that must grow are
    /// allocated anew and what they hold is copied.
    pub fn resize(
        &mut self,
        config: PendingFlowsConfig,
        metrics: &mut impl RecordPending,
    ) -> Result<u64, ConfigError> {
        Self::validate_config(&config)?;
        let (words, bytes) = layout::need(&config);
        grow(&mut self.areas.words, words);
        grow(&mut self.areas.bytes, bytes);
        let answer = self.record(metrics, |areas| areas.resize(&config));
        let dropped = match answer {
            Ok(dropped) => dropped,
            Err(DAMAGED) => {
                self.areas
                    .open(&config)
                    .map_err(|number| ConfigError::of_limits(number, &config))?;
                0
            }
            Err(number) => return Err(ConfigError::of_limits(number, &config)),
        };
        self.config = config;
        shrink(&mut self.areas.words, words);
        shrink(&mut self.areas.bytes, bytes);
        Ok(dropped)
    }

    /// What is held and counted; none where the areas hold no well-formed cache (number 28).
    pub fn figures(&self) -> Option<Figures> {
        let figures = self.areas.figures().ok()?;
        let [templates, bodies, bytes, pending_cached, pending_dropped, handed_out] = figures;
        Some(Figures {
            templates: templates as usize,
            bodies: bodies as usize,
            bytes: bytes as usize,
            pending_cached,
            pending_dropped,
            handed_out: handed_out as usize,
        })
    }

    /// Entries cached since the cache was made, or opened anew after number 28. As it stands in the
    /// areas: [`figures`](Self::figures) tests them first.
    pub fn pending_cached(&self) -> u64 {
        layout::counters(&self.areas.words).0
    }

    /// Entries evicted or expired, and offers refused (numbers 6 and 20), since the cache was made
    /// or opened anew after number 28. As it stands in the areas: [`figures`](Self::figures) tests
    /// them first. Not the offers refused with 28, which the metrics alone count.
    pub fn pending_dropped(&self) -> u64 {
        layout::counters(&self.areas.words).1
    }

    /// Entries that [`restore_replay_suffix`](Self::restore_replay_suffix) refused since the cache
    /// was made. Above 0, a caller put back something else than the last drain's suffix, and what
    /// it kept no copy of is lost.
    pub fn refused_put_backs(&self) -> u64 {
        self.refused_put_backs
    }

    /// A body that the last drain handed out, numbered from 0 and oldest first, as long as it may
    /// be put back. None where there is no such body (number 27).
    pub fn handed_out(&self, number: usize) -> Option<&[u8]> {
        let [place, length] = self.areas.place_handed_out(number).ok()?;
        self.bytes_at(place as usize, length as usize)
    }

    /// Whether the areas hold no well-formed cache (number 28).
    pub fn is_damaged(&self) -> bool {
        self.figures().is_none()
    }

    /// The limits in force.
    pub fn config(&self) -> &PendingFlowsConfig {
        &self.config
    }

    /// Nanoseconds since the cache was made.
    pub fn clock(&self) -> u64 {
        nanoseconds(self.origin.elapsed())
    }

    /// Makes a call, and adds to the metrics what it added to the areas' counters.
    fn record<T>(
        &mut self,
        metrics: &mut impl RecordPending,
        call: impl FnOnce(&mut Areas) -> T,
    ) -> T {
        let (cached, dropped) = layout::counters(&self.areas.words);
        let answer = call(&mut self.areas);
        let (cached_now, dropped_now) = layout::counters(&self.areas.words);
        if cached_now > cached {
            metrics.record_pending_cached();
        }
        let drops = dropped_now.saturating_sub(dropped);
        if drops > 0 {
            metrics.record_pending_dropped_n(drops);
        }
        answer
    }

    fn entry(&self, body: &HandedOut) -> PendingFlowEntry {
        let raw_data = self.bytes_at(body.place, body.length).unwrap_or_default().to_vec();
        PendingFlowEntry { raw_data, cached_at: self.instant(body.clock) }
    }

    fn bytes_at(&self, place: usize, length: usize) -> Option<&[u8]> {
        self.areas.bytes.get(place..)?.get(..length)
    }

    fn instant(&self, clock: u64) -> Instant {
        self.origin.checked_add(Duration::from_nanos(clock)).unwrap_or(self.origin)
    }

    /// Whether these are the last ones handed out, byte for byte.
    fn is_suffix_handed_out(&self, entries: &[PendingFlowEntry]) -> bool {
        let handed_out: Vec<HandedOut> = layout::handed_out(&self.areas.words).collect();
        let Some(first) = handed_out.len().checked_sub(entries.len()) else {
            return false;
        };
        entries.iter().zip(&handed_out[first..]).all(|(entry, body)| {
            self.instant(body.clock) == entry.cached_at
                && self.bytes_at(body.place, body.length) == Some(&entry.raw_data[..])
        })
    }
}

/// The figures and limits, and not the areas.
impl fmt::Debug for PendingFlowCache {
    fn fmt(&self, f: &mut fmt::Formatter<'_>) -> fmt::Result {
        f.debug_struct("PendingFlowCache")
            .field("config", &self.config)
            .field("figures", &self.figures())
            .finish_non_exhaustive()
    }
}

/// Lengthens an area. The longer one comes zeroed, so that what is not copied takes no memory yet.
fn grow<T: Copy + Default>(area: &mut Vec<T>, length: usize) {
    if area.len() < length {
        let mut longer = vec![T::default(); length];
        longer[..area.len()].copy_from_slice(area);
        *area = longer;
    }
}

fn shrink<T>(area: &mut Vec<T>, length: usize) {
    area.truncate(length);
    area.shrink_to_fit();
}
