//! The original cache and its metrics, called as document 01 has it.

use super::limits::{Areas, Limits};
use crate::clock::{Instant, with_clock};
use crate::numbers::{
    AREAS_TOO_SMALL, BAD_BODIES, BAD_ENTRY_SIZE, BAD_TEMPLATES, BAD_TOTAL, DONE, NO_CHANCE,
    NOT_HANDED_OUT, STILL_OVER, TEMPLATE_FULL, TOO_LONG,
};
use crate::variable_versions::config::ConfigError;
use crate::variable_versions::metrics::CacheMetricsInner;
use crate::variable_versions::pending_flows::{
    PendingFlowCache, PendingFlowEntry, PendingFlowsConfig,
};
use std::fmt;
use std::time::Duration;

/// The original asks its caller to put back only what the drain just before handed out.
/// Document 01 answers 25 where that is not so: the chance is kept here, and the original is not
/// asked then.
#[derive(Debug)]
pub struct Cache {
    original: PendingFlowCache,
    metrics: CacheMetricsInner,
    areas: Areas,
    offers: u64,
    chance: Chance,
}

/// What the last drain handed out, as long as it may be put back. No bodies: no chance.
#[derive(Debug, Default)]
struct Chance {
    id: u16,
    bodies: Vec<PendingFlowEntry>,
}

/// A body with the number of its offer and the clock reading of its offer.
#[derive(Clone, Copy, PartialEq, Eq)]
pub struct HeldBody<'a> {
    pub offer: u64,
    pub bytes: &'a [u8],
    pub clock: u64,
}

/// Shows no bytes: they are known by the offer, and a cache holds up to 64 MiB.
impl fmt::Debug for HeldBody<'_> {
    fn fmt(&self, to: &mut fmt::Formatter<'_>) -> fmt::Result {
        let Self { offer, bytes, clock } = self;
        write!(to, "offer {offer} ({} bytes, clock {clock})", bytes.len())
    }
}

/// A template with its bodies, oldest first.
#[derive(Debug, PartialEq, Eq)]
pub struct HeldTemplate<'a> {
    pub id: u16,
    pub bodies: Vec<HeldBody<'a>>,
}

/// All that can be seen of a cache.
#[derive(Debug, PartialEq, Eq)]
pub struct State<'a> {
    /// Least recent first.
    pub held: Vec<HeldTemplate<'a>>,
    /// The byte total as the original keeps it.
    pub bytes: u64,
    pub cached: u64,
    pub dropped: u64,
    /// What may still be put back, oldest first.
    pub handed: Vec<HeldBody<'a>>,
}

impl State<'_> {
    pub fn bodies(&self) -> u64 {
        self.held.iter().map(|template| template.bodies.len() as u64).sum()
    }
}

impl Cache {
    /// Numbers 1 to 5 where it is refused.
    pub fn open(limits: &Limits, areas: Areas) -> Result<Self, u32> {
        let config = legal_config(limits, areas)?;
        Ok(Self {
            original: PendingFlowCache::new(config).map_err(|error| config_number(&error))?,
            metrics: CacheMetricsInner::new(),
            areas,
            offers: 0,
            chance: Chance::default(),
        })
    }

    /// Answers 0, 6, 20 or 21.
    pub fn offer(&mut self, id: u16, bytes: Vec<u8>, clock: u64) -> u32 {
        let now = self.instant(clock);
        self.offers += 1;
        let refused = with_clock(now, || self.original.cache(id, bytes, &mut self.metrics));
        let number = refused.map_or(DONE, |bytes| self.refusal(id, bytes.len()));
        if number != TOO_LONG {
            self.end_chance();
        }
        number
    }

    /// Answers how many bodies are handed out.
    pub fn drain(&mut self, id: u16, clock: u64) -> u64 {
        let now = self.instant(clock);
        let bodies = with_clock(now, || self.original.drain(id, &mut self.metrics));
        self.chance = Chance { id, bodies };
        self.chance.bodies.len() as u64
    }

    /// Puts back the last n of the bodies handed out. Answers 0 or 25.
    pub fn put_back(&mut self, id: u16, n: u64) -> u32 {
        if n == 0 {
            self.original.restore_replay_suffix(id, Vec::new());
            return DONE;
        }
        let handed = self.chance.bodies.len() as u64;
        if n > handed || id != self.chance.id {
            return NO_CHANCE;
        }
        let last = self.chance.bodies.split_off((handed - n) as usize);
        self.end_chance();
        self.original.restore_replay_suffix(id, last);
        DONE
    }

    /// Answers how many bodies are dropped, or numbers 1 to 5.
    pub fn resize(&mut self, limits: &Limits) -> Result<u64, u32> {
        let config = legal_config(limits, self.areas)?;
        let dropped = self
            .original
            .resize(config, &mut self.metrics)
            .map_err(|error| config_number(&error))?;
        self.end_chance();
        Ok(dropped)
    }

    pub fn clear(&mut self) {
        self.original.clear();
        self.end_chance();
    }

    pub fn would_accept(&self, id: u16, length: u64, clock: u64) -> bool {
        with_clock(self.instant(clock), || self.original.would_accept(id, length as usize))
    }

    /// A handed-out body by its number, or 27.
    pub fn handed_out(&self, number: u64) -> Result<&[u8], u32> {
        let body = usize::try_from(number).ok().and_then(|at| self.chance.bodies.get(at));
        body.map(|body| body.raw_data.as_slice()).ok_or(NOT_HANDED_OUT)
    }

    /// The offers made since the opening.
    pub fn offers(&self) -> u64 {
        self.offers
    }

    pub fn state(&self) -> State<'_> {
        let held = self.original.held();
        let state = State {
            held: held.map(|(id, bodies)| HeldTemplate { id, bodies: seen(bodies) }).collect(),
            bytes: self.original.total_bytes() as u64,
            cached: self.metrics.pending_cached,
            dropped: self.metrics.pending_dropped,
            handed: seen(&self.chance.bodies),
        };
        assert_eq!(state.bodies(), self.original.count() as u64);
        state
    }

    fn instant(&self, clock: u64) -> Instant {
        Instant { reading: clock, offer: self.offers }
    }

    fn end_chance(&mut self) {
        self.chance = Chance::default();
    }

    /// The number of an offer that the original refused: it gives none, but each of its three
    /// refusals leaves another state.
    fn refusal(&self, id: u16, length: usize) -> u32 {
        let config = self.original.config();
        if length > config.max_entry_size_bytes {
            return TOO_LONG;
        }
        let Some((_, bodies)) = self.original.held().find(|(held, _)| *held == id) else {
            assert_eq!(self.original.count(), 0, "21 is answered when nothing is left to evict");
            return STILL_OVER;
        };
        assert!(bodies.len() >= config.max_entries_per_template, "20 is answered when full");
        TEMPLATE_FULL
    }
}

fn seen(bodies: &[PendingFlowEntry]) -> Vec<HeldBody<'_>> {
    bodies.iter().map(seen_body).collect()
}

fn seen_body(body: &PendingFlowEntry) -> HeldBody<'_> {
    let Instant { reading, offer } = body.cached_at;
    HeldBody { offer, bytes: &body.raw_data, clock: reading }
}

/// The original's own configuration, after `validate_config` and document 01's 5.
fn legal_config(limits: &Limits, areas: Areas) -> Result<PendingFlowsConfig, u32> {
    let config = PendingFlowsConfig {
        max_pending_flows: limits.templates as usize,
        max_entries_per_template: limits.bodies as usize,
        max_entry_size_bytes: limits.entry as usize,
        max_total_bytes: limits.total as usize,
        ttl: limits.ttl.map(Duration::from_nanos),
    };
    PendingFlowCache::validate_config(&config).map_err(|error| config_number(&error))?;
    if limits.fit(areas) { Ok(config) } else { Err(AREAS_TOO_SMALL) }
}

fn config_number(error: &ConfigError) -> u32 {
    match error {
        ConfigError::InvalidPendingCacheSize(_) => BAD_TEMPLATES,
        ConfigError::InvalidEntriesPerTemplate(_) => BAD_BODIES,
        ConfigError::InvalidEntrySize(_) => BAD_ENTRY_SIZE,
        ConfigError::InvalidPendingTotalBytes { .. } => BAD_TOTAL,
        other => unreachable!("no limit of the cache: {other:?}"),
    }
}

#[cfg(test)]
mod tests {
    use super::*;

    #[test]
    fn counters_stop_at_their_most() {
        let limits = Limits { templates: 1, bodies: 2, entry: 1, total: 2, ttl: None };
        let areas = limits.areas().expect("legal limits");
        let mut cache = Cache::open(&limits, areas).expect("legal limits");
        cache.metrics.pending_cached = u64::MAX - 1;
        cache.metrics.pending_dropped = u64::MAX - 1;
        assert_eq!(cache.offer(300, vec![1], 0), DONE);
        assert_eq!(cache.offer(300, vec![1], 0), DONE);
        assert_eq!(cache.offer(301, vec![1], 0), DONE);
        assert_eq!(cache.offer(301, vec![1, 1], 0), TOO_LONG);
        let State { cached, dropped, .. } = cache.state();
        assert_eq!((cached, dropped), (u64::MAX, u64::MAX));
    }
}
