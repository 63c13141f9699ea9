//! Stand-in for lru: the calls that the original makes, with the meaning that document 01 gives
//! them. Keys stand by recency in a plain list or, with the feature `linked`, in a linked one.
//!
//! Document 01 says nothing of a push of a key that is held, or of a push at the capacity. Both
//! answer what they displaced, as the original's comments on `push` say; it comes to neither
//! where the original is used as its comments ask.

#[cfg(feature = "linked")]
mod linked;
#[cfg(not(feature = "linked"))]
mod listed;

#[cfg(feature = "linked")]
pub use linked::LruCache;
#[cfg(not(feature = "linked"))]
pub use listed::LruCache;

#[cfg(test)]
mod tests {
    use super::*;
    use std::num::NonZeroUsize;

    fn of(capacity: usize, keys: &[u16]) -> LruCache<u16, char> {
        let mut cache = LruCache::new(NonZeroUsize::new(capacity).expect("not 0"));
        for &key in keys {
            cache.push(key, 'a');
        }
        cache
    }

    /// Least recent first.
    fn keys(cache: &LruCache<u16, char>) -> Vec<u16> {
        cache.iter().rev().map(|(&key, _)| key).collect()
    }

    #[test]
    fn keys_stand_by_recency() {
        let mut cache = of(3, &[1, 2, 3]);
        assert_eq!(keys(&cache), [1, 2, 3]);
        cache.promote(&1);
        assert_eq!(keys(&cache), [2, 3, 1]);
        assert_eq!((cache.peek(&2), cache.peek(&4)), (Some(&'a'), None));
        assert_eq!(cache.peek_mut(&3).copied(), Some('a'));
        assert_eq!(keys(&cache), [2, 3, 1]);
        assert_eq!(cache.pop(&3), Some('a'));
        assert_eq!(cache.pop_lru(), Some((2, 'a')));
        assert_eq!(keys(&cache), [1]);
        cache.clear();
        assert_eq!((cache.pop_lru(), cache.pop(&1)), (None, None));
    }

    #[test]
    fn a_push_answers_what_it_displaced() {
        let mut cache = of(2, &[1, 2]);
        assert_eq!(cache.push(1, 'b'), Some((1, 'a')));
        assert_eq!(keys(&cache), [2, 1]);
        assert_eq!(cache.push(3, 'c'), Some((2, 'a')));
        assert_eq!(keys(&cache), [1, 3]);
    }

    #[test]
    fn a_resize_removes_the_oldest() {
        let mut cache = of(3, &[1, 2, 3]);
        cache.resize(NonZeroUsize::new(2).expect("not 0"));
        assert_eq!((keys(&cache), cache.cap().get()), (vec![2, 3], 2));
    }
}
