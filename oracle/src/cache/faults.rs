//! What the original does where a put-back is not, as its comment asks, of what a drain of that id
//! handed out "immediately before this call". Document 01 answers 25 there.
//!
//! Each test is run twice: as in a build for use, without debug assertions, which gives the figures,
//! and with them, where some lists stop the original instead.

use crate::checks;
use crate::clock::{Instant, with_clock};
use crate::variable_versions::metrics::CacheMetricsInner;
use crate::variable_versions::pending_flows::{
    PendingFlowCache, PendingFlowEntry, PendingFlowsConfig,
};
use std::panic::{AssertUnwindSafe, catch_unwind};

/// The original alone, with no answer of document 01's.
struct Alone {
    cache: PendingFlowCache,
    metrics: CacheMetricsInner,
}

const NOW: Instant = Instant { reading: 0, offer: 0 };

fn config([templates, bodies, entry, total]: [usize; 4]) -> PendingFlowsConfig {
    PendingFlowsConfig {
        max_pending_flows: templates,
        max_entries_per_template: bodies,
        max_entry_size_bytes: entry,
        max_total_bytes: total,
        ttl: None,
    }
}

impl Alone {
    fn open(limits: [usize; 4]) -> Self {
        let cache = PendingFlowCache::new(config(limits)).expect("legal limits");
        Self { cache, metrics: CacheMetricsInner::new() }
    }

    /// Whether the body is accepted. All of its bytes are its length.
    fn offer(&mut self, id: u16, length: u8) -> bool {
        let body = vec![length; length.into()];
        with_clock(NOW, || self.cache.cache(id, body, &mut self.metrics)).is_none()
    }

    fn drain(&mut self, id: u16) -> Vec<PendingFlowEntry> {
        with_clock(NOW, || self.cache.drain(id, &mut self.metrics))
    }

    fn resize(&mut self, limits: [usize; 4]) {
        self.cache.resize(config(limits), &mut self.metrics).expect("legal limits");
    }

    /// Ids with the lengths of their bodies, least recent first.
    fn holds(&self) -> Vec<(u16, Vec<usize>)> {
        let lengths =
            |bodies: &[PendingFlowEntry]| bodies.iter().map(|body| body.raw_data.len()).collect();
        self.cache.held().map(|(id, bodies)| (id, lengths(bodies))).collect()
    }

    /// The byte total as kept, `pending_cached`, `pending_dropped`.
    fn figures(&self) -> [u64; 3] {
        let Self { cache, metrics } = self;
        [cache.total_bytes() as u64, metrics.pending_cached, metrics.pending_dropped]
    }
}

/// Whether a debug assertion of the original stops the put-back.
#[derive(PartialEq, Eq, Debug)]
enum Checked {
    Stops,
    Passes,
}

/// The cache after a put-back under the id, in a build without debug assertions.
fn put_back(id: u16, run: impl Fn() -> (Alone, Vec<PendingFlowEntry>), expected: Checked) -> Alone {
    let (mut checked, bodies) = run();
    let restore = AssertUnwindSafe(|| checked.cache.restore_replay_suffix(id, bodies));
    let stops = catch_unwind(restore).is_err();
    assert_eq!(if stops { Checked::Stops } else { Checked::Passes }, expected);
    let (mut alone, bodies) = run();
    checks::left_out(|| alone.cache.restore_replay_suffix(id, bodies));
    alone
}

/// The body offered in between is lost and counted nowhere, and the total is 3 with 2 bytes held.
#[test]
fn after_a_new_offer_of_the_id_a_body_is_lost() {
    let alone = put_back(
        300,
        || {
            let mut alone = Alone::open([1, 1, 2, 2]);
            assert!(alone.offer(300, 2));
            let handed = alone.drain(300);
            assert!(alone.offer(300, 1));
            (alone, handed)
        },
        Checked::Stops,
    );
    assert_eq!(alone.holds(), [(300, vec![2])]);
    assert_eq!(alone.figures(), [3, 2, 0]);
}

/// The smallest input of this kind. With bodies of no bytes even the total is right.
#[test]
fn a_body_is_lost_with_a_right_total() {
    let alone = put_back(
        300,
        || {
            let mut alone = Alone::open([1, 1, 1, 1]);
            assert!(alone.offer(300, 0));
            let handed = alone.drain(300);
            assert!(alone.offer(300, 0));
            (alone, handed)
        },
        Checked::Stops,
    );
    assert_eq!(alone.holds(), [(300, vec![0])]);
    assert_eq!(alone.figures(), [0, 2, 0]);
}

/// A put-back under another id replaces what that one holds, even right after the drain.
#[test]
fn under_another_id_a_body_is_lost() {
    let alone = put_back(
        301,
        || {
            let mut alone = Alone::open([2, 1, 1, 1]);
            assert!(alone.offer(300, 0));
            assert!(alone.offer(301, 1));
            let handed = alone.drain(300);
            (alone, handed)
        },
        Checked::Stops,
    );
    assert_eq!(alone.holds(), [(301, vec![0])]);
    assert_eq!(alone.figures(), [1, 2, 0]);
}

/// A refill at the template limit: the other template goes with its bodies, counted nowhere.
fn refilled() -> Alone {
    put_back(
        300,
        || {
            let mut alone = Alone::open([1, 1, 1, 1]);
            assert!(alone.offer(300, 1));
            let handed = alone.drain(300);
            assert!(alone.offer(301, 1));
            (alone, handed)
        },
        Checked::Stops,
    )
}

#[test]
fn after_a_refill_a_template_is_lost() {
    let alone = refilled();
    assert_eq!(alone.holds(), [(300, vec![1])]);
    assert_eq!(alone.figures(), [2, 2, 0]);
}

/// What follows from the wrong total: an empty cache that refuses a body within all limits,
/// again and again. Neither a refused offer nor the drain of an id that is not held counts
/// towards the recount, so it does not come.
#[test]
fn after_a_refill_every_offer_is_refused() {
    let mut alone = refilled();
    for _ in 0..5_000 {
        assert!(!alone.offer(302, 1));
        assert!(alone.drain(302).is_empty());
    }
    assert_eq!(alone.holds(), []);
    assert_eq!(alone.figures(), [1, 2, 5_001]);
    // Clear and resize mend it.
    alone.resize([1, 1, 1, 1]);
    assert!(alone.offer(302, 1));
}

/// A refill with room for templates: nothing is lost, and the byte limit is passed, with no
/// assertion that would tell.
#[test]
fn after_a_refill_the_byte_limit_is_passed() {
    let alone = put_back(
        300,
        || {
            let mut alone = Alone::open([2, 1, 1, 1]);
            assert!(alone.offer(300, 1));
            let handed = alone.drain(300);
            assert!(alone.offer(301, 1));
            (alone, handed)
        },
        Checked::Passes,
    );
    assert_eq!(alone.holds(), [(301, vec![1]), (300, vec![1])]);
    assert_eq!(alone.figures(), [2, 2, 0]);
}

/// A resize in between: the new cap, entry size and byte limit are passed, with no assertion
/// that would tell.
#[test]
fn after_a_resize_the_limits_are_passed() {
    let alone = put_back(
        300,
        || {
            let mut alone = Alone::open([1, 2, 2, 2]);
            assert!(alone.offer(300, 2));
            assert!(alone.offer(300, 0));
            let handed = alone.drain(300);
            alone.resize([1, 1, 1, 1]);
            (alone, handed)
        },
        Checked::Passes,
    );
    assert_eq!(alone.holds(), [(300, vec![2, 0])]);
    assert_eq!(alone.figures(), [2, 2, 0]);
}
