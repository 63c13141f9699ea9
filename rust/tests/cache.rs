//! The crate's cache beside the original, call by call. The lists of calls are the oracle's.
//! docs/DIFFERENCES.md has the sum of the calls.

use netflow_pending::{
    ConfigError, Figures, PendingFlowCache, PendingFlowEntry, PendingFlowsConfig, PendingMetrics,
};
use oracle::cache::account::Account;
use oracle::cache::body::body;
use oracle::cache::call::{Answer, Call};
use oracle::cache::document;
use oracle::cache::limits::{Areas, Limits};
use oracle::cache::parts::{Part, Taker};
use oracle::cache::run::Run;
use oracle::numbers::{
    AREAS_TOO_SMALL, BAD_BODIES, BAD_ENTRY_SIZE, BAD_TEMPLATES, BAD_TOTAL, DONE, NO_CHANCE,
    NOT_HANDED_OUT,
};
use std::convert::Infallible;
use std::time::{Duration, Instant};

/// The crate's areas are as long as its limits ask: 5 comes of the limits alone.
const NO_BOUND: Areas = Areas { bytes: u64::MAX, words: u64::MAX };

/// The original on one side, the crate on the other.
struct Sides {
    run: Run,
    cache: PendingFlowCache,
    metrics: PendingMetrics,
    /// What the crate's last drain answered, put back or not.
    drained: Vec<PendingFlowEntry>,
}

#[derive(Default)]
struct Comparison {
    sides: Option<Sides>,
    calls: u64,
}

impl Taker for Comparison {
    type Error = Infallible;

    fn add(&mut self, call: &Call) -> Result<(), Infallible> {
        self.calls += 1;
        match *call {
            Call::Open { limits, .. } if Run::open(call).is_some() => {
                self.finish();
                self.sides = Some(Sides::open(&limits));
            }
            _ => self.sides.as_mut().expect("a list begins with an opening").call(call),
        }
        Ok(())
    }

    fn account(&self) -> &Account {
        &self.sides.as_ref().expect("a list begins with an opening").run.account
    }
}

impl Comparison {
    /// Drains what is held at the end of a list, so that every body is seen.
    fn finish(&mut self) {
        if let Some(sides) = &mut self.sides {
            let ids: Vec<u16> = sides.run.account.held.iter().map(|held| held.id).collect();
            for id in ids {
                sides.call(&Call::Drain { id, clock: 0 });
            }
        }
    }

    fn of_lists(lists: &[Vec<Call>]) -> u64 {
        let mut comparison = Self::default();
        for calls in lists {
            let Ok(()) = comparison.add_all(calls);
        }
        comparison.finish();
        comparison.calls
    }

    fn of_part(part: Part) -> u64 {
        let mut comparison = Self::default();
        let Ok(()) = part.make(&mut comparison);
        comparison.finish();
        comparison.calls
    }
}

impl Sides {
    fn open(limits: &Limits) -> Self {
        Self {
            run: Run::open(&Call::Open { limits: *limits, areas: NO_BOUND }).expect("accepted"),
            cache: PendingFlowCache::new(config(limits)).expect("accepted"),
            metrics: PendingMetrics::default(),
            drained: Vec::new(),
        }
    }

    fn call(&mut self, call: &Call) {
        let offered = self.run.cache.offers();
        let expected = self.run.call(call);
        let answer = self.crate_answer(call, offered, &expected);
        assert_eq!(answer, expected, "{call:?}");
        self.compare_figures(call);
    }

    fn crate_answer(&mut self, call: &Call, offered: u64, expected: &Answer) -> Answer {
        let Self { cache, metrics, drained, .. } = self;
        match *call {
            Call::Open { limits, .. } => {
                let number = PendingFlowCache::new(config(&limits)).map_or_else(number, |_| DONE);
                // Refused for the areas lent, of which the crate has none.
                let by_areas = number == DONE && expected.number == AREAS_TOO_SMALL;
                assert!(!by_areas || limits.areas().is_some());
                Answer::number(if by_areas { AREAS_TOO_SMALL } else { number })
            }
            Call::Offer { id, length, clock } => {
                let data = body(offered, length);
                match cache.cache_at(id, data.clone(), clock, metrics) {
                    None => Answer::number(DONE),
                    Some(back) => {
                        assert_eq!(back, data, "the data come back");
                        // Which refusal it was, the crate does not say.
                        assert_ne!(expected.number, DONE);
                        Answer::number(expected.number)
                    }
                }
            }
            Call::Drain { id, clock } => {
                *drained = cache.drain_at(id, clock, metrics);
                self.compare_drained();
                Answer::value(self.drained.len() as u64)
            }
            Call::PutBack { id, n } => Answer::number(self.put_back(id, n, expected.number)),
            Call::Resize(limits) => match cache.resize(config(&limits), metrics) {
                Ok(dropped) => Answer::value(dropped),
                Err(error) => Answer::number(number(error)),
            },
            Call::Clear => {
                cache.clear();
                Answer::number(DONE)
            }
            Call::WouldAccept { id, length, clock } => {
                Answer::value(u64::from(cache.would_accept_at(id, length as usize, clock)))
            }
            Call::ReadHandedOut { number } => match cache.handed_out(number as usize) {
                Some(bytes) => {
                    assert_eq!(self.run.cache.handed_out(number), Ok(bytes));
                    Answer::value(bytes.len() as u64)
                }
                None => Answer::number(NOT_HANDED_OUT),
            },
        }
    }

    /// The last n of what was drained last, or more than that. By the original's name where it
    /// takes them.
    fn put_back(&mut self, id: u16, n: u64, expected: u32) -> u32 {
        let entries = match (self.drained.len() as u64).checked_sub(n) {
            Some(first) => self.drained[first as usize..].to_vec(),
            None => {
                let other = PendingFlowEntry { raw_data: Vec::new(), cached_at: Instant::now() };
                [&[other], &self.drained[..]].concat()
            }
        };
        if expected == DONE {
            self.cache.restore_replay_suffix(id, entries);
            return DONE;
        }
        let refused = self.cache.try_restore_replay_suffix(id, entries.clone());
        assert_eq!(refused, Err(entries));
        NO_CHANCE
    }

    /// Bodies byte for byte, and clock readings by their distances.
    fn compare_drained(&self) {
        let state = self.run.cache.state();
        assert_eq!(self.drained.len(), state.handed.len());
        let first = self.drained.first().zip(state.handed.first());
        for (number, (entry, body)) in self.drained.iter().zip(&state.handed).enumerate() {
            assert_eq!(entry.raw_data, body.bytes);
            assert_eq!(self.cache.handed_out(number), Some(body.bytes));
            let (first_entry, first_body) = first.expect("there is one");
            let later = body.clock.checked_sub(first_body.clock).map(Duration::from_nanos);
            assert_eq!(entry.cached_at.checked_duration_since(first_entry.cached_at), later);
        }
    }

    fn compare_figures(&self, call: &Call) {
        let state = self.run.cache.state();
        let expected = Figures {
            templates: state.held.len(),
            bodies: state.bodies() as usize,
            bytes: state.bytes as usize,
            pending_cached: state.cached,
            pending_dropped: state.dropped,
            handed_out: state.handed.len(),
        };
        assert_eq!(self.cache.figures(), Some(expected), "{call:?}");
        let counters = (self.cache.pending_cached(), self.cache.pending_dropped());
        assert_eq!(counters, (state.cached, state.dropped), "{call:?}");
        let metrics = (self.metrics.pending_cached, self.metrics.pending_dropped);
        assert_eq!(metrics, counters, "{call:?}");
        assert_eq!(self.cache.count(), expected.bodies);
        assert!(!self.cache.is_damaged());
        assert_eq!(*self.cache.config(), config(&self.run.account.limits), "{call:?}");
    }
}

fn config(limits: &Limits) -> PendingFlowsConfig {
    PendingFlowsConfig {
        max_pending_flows: limits.templates as usize,
        max_entries_per_template: limits.bodies as usize,
        max_entry_size_bytes: limits.entry as usize,
        max_total_bytes: limits.total as usize,
        ttl: limits.ttl.map(Duration::from_nanos),
    }
}

fn number(error: ConfigError) -> u32 {
    match error {
        ConfigError::InvalidPendingCacheSize(_) => BAD_TEMPLATES,
        ConfigError::InvalidEntriesPerTemplate(_) => BAD_BODIES,
        ConfigError::InvalidEntrySize(_) => BAD_ENTRY_SIZE,
        ConfigError::InvalidPendingTotalBytes { .. } => BAD_TOTAL,
        ConfigError::PendingLimitsTooLarge { .. } => AREAS_TOO_SMALL,
        other => panic!("no limit of a cache: {other:?}"),
    }
}

/// Document 01's cases, a case against each wrong reading that it lists, and each ending of the
/// chance of a put-back.
#[test]
fn cases() {
    assert_eq!(Comparison::of_lists(&document::lists()), 138);
}

#[test]
fn small_caches() {
    assert_eq!(Comparison::of_part(Part::Small { seed: 11, lists: 20_000 }), 627_796);
}

#[test]
fn middle_caches() {
    assert_eq!(Comparison::of_part(Part::Middle { seed: 11 }), 100_020);
}

#[test]
fn default_limits() {
    assert_eq!(Comparison::of_part(Part::Defaults { seed: 11, calls: 10_000 }), 20_014);
}

/// All lists of up to 4 calls on six small caches, and of 3 calls after three fillings.
#[test]
fn exhaustive() {
    assert_eq!(Comparison::of_part(Part::Exhaustive), 5_904_000);
}
