//! Calls by the original's names: with the clock that runs, and refused put-backs.

use netflow_pending::{PendingFlowCache, PendingFlowEntry, PendingFlowsConfig, PendingMetrics};
use std::thread::sleep;
use std::time::{Duration, Instant};

fn config(ttl: Option<Duration>) -> PendingFlowsConfig {
    PendingFlowsConfig {
        max_pending_flows: 2,
        max_entries_per_template: 3,
        max_entry_size_bytes: 10,
        max_total_bytes: 16,
        ttl,
    }
}

fn open(ttl: Option<Duration>) -> (PendingFlowCache, PendingMetrics) {
    (PendingFlowCache::new(config(ttl)).expect("legal limits"), PendingMetrics::default())
}

fn data(entries: &[PendingFlowEntry]) -> Vec<&[u8]> {
    entries.iter().map(|entry| entry.raw_data.as_slice()).collect()
}

fn counters(pending_cached: u64, pending_dropped: u64) -> PendingMetrics {
    PendingMetrics { pending_cached, pending_dropped }
}

#[test]
fn bodies_expire_as_time_passes() {
    let ttl = Duration::from_millis(200);
    let (mut cache, mut metrics) = open(Some(ttl));
    let before = Instant::now();
    assert_eq!(cache.cache(300, vec![1], &mut metrics), None);
    assert_eq!(cache.cache(301, vec![2], &mut metrics), None);
    let after = Instant::now();
    let drained = cache.drain(300, &mut metrics);
    if after.elapsed() < ttl / 2 {
        assert_eq!(data(&drained), [[1]]);
        assert!(before <= drained[0].cached_at && drained[0].cached_at <= after);
    }
    sleep(ttl);
    assert_eq!(cache.drain(301, &mut metrics), []);
    assert!(metrics.pending_dropped >= 1);
}

#[test]
fn a_ttl_of_0_expires_everything() {
    let (mut cache, mut metrics) = open(Some(Duration::ZERO));
    assert_eq!(cache.cache(300, vec![1], &mut metrics), None);
    assert!(cache.would_accept(300, 1));
    assert_eq!(cache.drain(300, &mut metrics), []);
    assert_eq!(metrics, counters(1, 1));
}

#[test]
fn a_ttl_above_64_bits_is_taken() {
    let (mut cache, mut metrics) = open(Some(Duration::MAX));
    assert_eq!(cache.cache_at(300, vec![1], 0, &mut metrics), None);
    assert_eq!(cache.drain_at(300, u64::MAX - 1, &mut metrics).len(), 1);
    assert_eq!(cache.cache_at(300, vec![1], 0, &mut metrics), None);
    assert_eq!(cache.drain_at(300, u64::MAX, &mut metrics).len(), 0);
}

#[test]
fn a_suffix_is_put_back() {
    let (mut cache, mut metrics) = open(None);
    for byte in 1..=3 {
        assert_eq!(cache.cache(300, vec![byte], &mut metrics), None);
    }
    let mut drained = cache.drain(300, &mut metrics);
    assert_eq!(data(&drained), [[1], [2], [3]]);
    assert_eq!(
        (cache.count(), cache.handed_out(2), cache.handed_out(3)),
        (0, Some(&[3][..]), None)
    );
    let rest = drained.split_off(1);
    cache.restore_replay_suffix(300, rest.clone());
    assert_eq!(cache.count(), 2);
    assert_eq!(cache.drain(300, &mut metrics), rest);
    assert_eq!(metrics, counters(3, 0));
}

/// Entries that are not the last ones of the last drain: nothing changes.
#[test]
fn other_entries_are_refused() {
    let (mut cache, mut metrics) = open(None);
    for body in [[1, 1], [2, 2]] {
        assert_eq!(cache.cache(300, body.to_vec(), &mut metrics), None);
    }
    let drained = cache.drain(300, &mut metrics);
    let altered = |change: fn(&mut PendingFlowEntry)| {
        let mut entries = drained.clone();
        change(&mut entries[1]);
        entries
    };
    for entries in [
        drained[..1].to_vec(),
        altered(|entry| entry.raw_data[1] = 3),
        altered(|entry| entry.raw_data.truncate(1)),
        altered(|entry| entry.cached_at += Duration::from_nanos(1)),
        [drained.clone(), drained.clone()].concat(),
        drained.iter().rev().cloned().collect(),
    ] {
        let refused = cache.try_restore_replay_suffix(300, entries.clone());
        assert_eq!(refused, Err(entries));
    }
    assert!(cache.try_restore_replay_suffix(301, drained.clone()).is_err());
    assert_eq!((cache.count(), cache.refused_put_backs(), metrics), (0, 0, counters(2, 0)));
    cache.restore_replay_suffix(300, drained.clone());
    assert_eq!((cache.count(), cache.drain(300, &mut metrics)), (2, drained));
}

/// A refused put-back is no drop, also where its entries are put back after all.
#[test]
fn refused_put_backs_are_counted_apart() {
    let (mut cache, mut metrics) = open(None);
    for body in [[1, 1], [2, 2]] {
        assert_eq!(cache.cache(300, body.to_vec(), &mut metrics), None);
    }
    let drained = cache.drain(300, &mut metrics);
    cache.restore_replay_suffix(301, drained.clone());
    assert_eq!((cache.count(), cache.refused_put_backs()), (0, 2));
    cache.restore_replay_suffix(300, drained.clone());
    assert_eq!((cache.count(), cache.refused_put_backs()), (2, 2));
    cache.restore_replay_suffix(300, drained[1..].to_vec());
    cache.restore_replay_suffix(302, Vec::new());
    assert_eq!((cache.count(), cache.refused_put_backs()), (2, 3));

    assert_eq!(cache.drain(300, &mut metrics), drained);
    assert_eq!(cache.cache(301, vec![3], &mut metrics), None);
    cache.restore_replay_suffix(300, drained);
    assert_eq!((cache.count(), cache.refused_put_backs()), (1, 5));
    assert_eq!(metrics, counters(3, 0));
    assert_eq!((cache.pending_cached(), cache.pending_dropped()), (3, 0));
}

#[test]
fn areas_grow_and_shrink() {
    let (mut cache, mut metrics) = open(None);
    assert_eq!(cache.cache(300, vec![1; 10], &mut metrics), None);
    assert_eq!(cache.cache(301, vec![2; 6], &mut metrics), None);
    let large = PendingFlowsConfig::default();
    assert_eq!(cache.resize(large, &mut metrics), Ok(0));
    assert_eq!(cache.cache(301, vec![3; 65_531], &mut metrics), None);
    assert!(cache.would_accept(303, 65_531));
    assert_eq!(cache.resize(config(None), &mut metrics), Ok(1));
    assert!(!cache.would_accept(303, 65_531));
    assert_eq!(data(&cache.drain(301, &mut metrics)), [[2; 6]]);
    assert_eq!(data(&cache.drain(300, &mut metrics)), [[1; 10]]);
    assert_eq!(metrics, counters(3, 1));
}

/// A parser may be moved to another thread and be looked at from several.
#[test]
fn is_send_and_sync() {
    fn check<T: Send + Sync + 'static>() {}
    check::<PendingFlowCache>();
}
