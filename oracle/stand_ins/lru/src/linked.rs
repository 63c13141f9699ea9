//! The same calls in constant time, for measuring: a map from keys to places in a list that is
//! linked by recency.

use std::collections::HashMap;
use std::hash::{BuildHasherDefault, Hash, Hasher};
use std::num::NonZeroUsize;

/// No place.
const NONE: usize = usize::MAX;

#[derive(Debug)]
pub struct LruCache<K, V> {
    capacity: NonZeroUsize,
    places: HashMap<K, usize, BuildHasherDefault<Product>>,
    nodes: Vec<Node<K, V>>,
    free: Vec<usize>,
    oldest: usize,
    newest: usize,
}

/// A free place has no entry.
#[derive(Debug)]
struct Node<K, V> {
    entry: Option<(K, V)>,
    older: usize,
    newer: usize,
}

impl<K: Hash + Eq + Copy, V> LruCache<K, V> {
    pub fn new(capacity: NonZeroUsize) -> Self {
        let (nodes, free) = (Vec::new(), Vec::new());
        Self { capacity, places: HashMap::default(), nodes, free, oldest: NONE, newest: NONE }
    }

    pub fn len(&self) -> usize {
        self.places.len()
    }

    pub fn is_empty(&self) -> bool {
        self.places.is_empty()
    }

    pub fn cap(&self) -> NonZeroUsize {
        self.capacity
    }

    /// Most recent first.
    pub fn iter(&self) -> impl DoubleEndedIterator<Item = (&K, &V)> {
        Iter { cache: self, newest: self.newest, oldest: self.oldest, left: self.len() }
    }

    /// Changes no order.
    pub fn peek(&self, key: &K) -> Option<&V> {
        let at = *self.places.get(key)?;
        self.nodes[at].entry.as_ref().map(|(_, value)| value)
    }

    /// Changes no order.
    pub fn peek_mut(&mut self, key: &K) -> Option<&mut V> {
        let at = *self.places.get(key)?;
        self.nodes[at].entry.as_mut().map(|(_, value)| value)
    }

    /// Makes the key newest.
    pub fn promote(&mut self, key: &K) {
        if let Some(&at) = self.places.get(key) {
            self.unlink(at);
            self.link_newest(at);
        }
    }

    /// Puts the key newest. Answers what it displaced: the key's old value, or the least recent
    /// entry at the capacity.
    pub fn push(&mut self, key: K, value: V) -> Option<(K, V)> {
        let displaced = match self.pop(&key) {
            Some(old) => Some((key, old)),
            None if self.len() >= self.capacity.get() => self.pop_lru(),
            None => None,
        };
        let node = Node { entry: Some((key, value)), older: NONE, newer: NONE };
        let at = match self.free.pop() {
            Some(at) => {
                self.nodes[at] = node;
                at
            }
            None => {
                self.nodes.push(node);
                self.nodes.len() - 1
            }
        };
        self.places.insert(key, at);
        self.link_newest(at);
        displaced
    }

    /// Removes the key.
    pub fn pop(&mut self, key: &K) -> Option<V> {
        let at = self.places.remove(key)?;
        self.take(at).map(|(_, value)| value)
    }

    /// Removes the oldest key.
    pub fn pop_lru(&mut self) -> Option<(K, V)> {
        if self.oldest == NONE {
            return None;
        }
        let entry = self.take(self.oldest)?;
        self.places.remove(&entry.0);
        Some(entry)
    }

    pub fn clear(&mut self) {
        *self = Self::new(self.capacity);
    }

    /// Removes the oldest keys where there are more than the new capacity.
    pub fn resize(&mut self, capacity: NonZeroUsize) {
        while self.len() > capacity.get() {
            self.pop_lru();
        }
        self.capacity = capacity;
    }

    fn take(&mut self, at: usize) -> Option<(K, V)> {
        self.unlink(at);
        self.free.push(at);
        self.nodes[at].entry.take()
    }

    fn unlink(&mut self, at: usize) {
        let Node { older, newer, .. } = self.nodes[at];
        match older {
            NONE => self.oldest = newer,
            older => self.nodes[older].newer = newer,
        }
        match newer {
            NONE => self.newest = older,
            newer => self.nodes[newer].older = older,
        }
    }

    fn link_newest(&mut self, at: usize) {
        self.nodes[at].older = self.newest;
        self.nodes[at].newer = NONE;
        match self.newest {
            NONE => self.oldest = at,
            newest => self.nodes[newest].newer = at,
        }
        self.newest = at;
    }
}

struct Iter<'a, K, V> {
    cache: &'a LruCache<K, V>,
    newest: usize,
    oldest: usize,
    left: usize,
}

impl<'a, K, V> Iter<'a, K, V> {
    fn entry(&mut self, at: usize) -> Option<(&'a K, &'a V)> {
        self.left -= 1;
        self.cache.nodes[at].entry.as_ref().map(|(key, value)| (key, value))
    }
}

impl<'a, K, V> Iterator for Iter<'a, K, V> {
    type Item = (&'a K, &'a V);

    fn next(&mut self) -> Option<Self::Item> {
        if self.left == 0 {
            return None;
        }
        let at = self.newest;
        self.newest = self.cache.nodes[at].older;
        self.entry(at)
    }
}

impl<K, V> DoubleEndedIterator for Iter<'_, K, V> {
    fn next_back(&mut self) -> Option<Self::Item> {
        if self.left == 0 {
            return None;
        }
        let at = self.oldest;
        self.oldest = self.cache.nodes[at].newer;
        self.entry(at)
    }
}

/// One multiplication: the map of the original's `lru` hashes as quickly.
#[derive(Default)]
struct Product(u64);

impl Hasher for Product {
    fn finish(&self) -> u64 {
        self.0
    }

    fn write(&mut self, bytes: &[u8]) {
        for &byte in bytes {
            self.write_u16(u16::from(byte));
        }
    }

    fn write_u16(&mut self, key: u16) {
        let product = (self.0 ^ u64::from(key)).wrapping_mul(0x9E37_79B9_7F4A_7C15);
        self.0 = product ^ (product >> 32);
    }
}
