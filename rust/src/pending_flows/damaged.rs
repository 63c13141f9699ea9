//! Number 28: areas that were written by something else than the calls.

use super::*;
use crate::metrics::PendingMetrics;

fn damaged() -> (PendingFlowCache, PendingMetrics) {
    let config = PendingFlowsConfig {
        max_pending_flows: 2,
        max_entries_per_template: 2,
        max_entry_size_bytes: 10,
        max_total_bytes: 16,
        ttl: None,
    };
    let mut cache = PendingFlowCache::new(config).expect("legal limits");
    let mut metrics = PendingMetrics::default();
    assert_eq!(cache.cache(300, vec![1; 6], &mut metrics), None);
    assert!(!cache.is_damaged());
    // The byte total.
    cache.areas.words[8] += 1;
    (cache, metrics)
}

#[test]
fn every_call_is_refused() {
    let (mut cache, mut metrics) = damaged();
    let words = cache.areas.words.clone();
    assert!(cache.is_damaged());
    assert!(!cache.would_accept(300, 1));
    assert_eq!(cache.cache(300, vec![1], &mut metrics), Some(vec![1]));
    assert_eq!(cache.drain(300, &mut metrics), []);
    assert_eq!((cache.count(), cache.figures(), cache.handed_out(0)), (0, None, None));
    let entry = PendingFlowEntry { raw_data: vec![1; 6], cached_at: Instant::now() };
    cache.restore_replay_suffix(300, Vec::new());
    assert_eq!(cache.try_restore_replay_suffix(300, vec![entry.clone()]), Err(vec![entry.clone()]));
    cache.restore_replay_suffix(300, vec![entry]);
    assert_eq!((cache.refused_put_backs(), cache.pending_dropped()), (1, 0));
    assert_eq!(metrics, PendingMetrics { pending_cached: 1, pending_dropped: 1 });
    assert_eq!(cache.areas.words, words);
    assert!(format!("{cache:?}").contains("figures: None"));
}

#[test]
fn clear_opens_anew() {
    let (mut cache, mut metrics) = damaged();
    cache.clear();
    assert_eq!((cache.is_damaged(), cache.count()), (false, 0));
    assert_eq!(cache.cache(300, vec![1], &mut metrics), None);
    assert_eq!(metrics, PendingMetrics { pending_cached: 2, pending_dropped: 0 });
    assert_eq!((cache.pending_cached(), cache.pending_dropped()), (1, 0), "counted anew");
}

#[test]
fn resize_opens_anew() {
    let (mut cache, mut metrics) = damaged();
    let config = PendingFlowsConfig { max_pending_flows: 3, ..cache.config().clone() };
    assert_eq!(cache.resize(config, &mut metrics), Ok(0));
    assert_eq!((cache.is_damaged(), cache.count()), (false, 0));
    for id in 300..303 {
        assert_eq!(cache.cache(id, vec![1], &mut metrics), None);
    }
    assert_eq!((cache.count(), metrics.pending_dropped), (3, 0));
}

/// Whatever stands in the words, nothing panics.
#[test]
fn any_words() {
    let (mut cache, mut metrics) = damaged();
    for value in [0, 1, 2, 1 << 32, u64::MAX / 2, u64::MAX] {
        for at in 0..cache.areas.words.len() {
            cache.clear();
            assert_eq!(cache.cache(300, vec![1; 6], &mut metrics), None);
            assert_eq!(cache.drain(300, &mut metrics).len(), 1);
            cache.areas.words[at] = value;
            let entries = vec![PendingFlowEntry { raw_data: vec![1; 6], cached_at: cache.origin }];
            let _ = cache.try_restore_replay_suffix(300, entries);
            let _ = cache.cache(301, vec![1], &mut metrics);
            let _ = cache.drain(301, &mut metrics);
            let _ = (cache.handed_out(0), cache.count());
            let config = cache.config().clone();
            assert!(cache.resize(config, &mut metrics).is_ok());
            assert!(!cache.is_damaged());
        }
    }
}
