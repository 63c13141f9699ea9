//! Keys by recency in a plain list.

use std::num::NonZeroUsize;

#[derive(Debug)]
pub struct LruCache<K, V> {
    capacity: NonZeroUsize,
    /// Least recent first.
    entries: Vec<(K, V)>,
}

impl<K: PartialEq, V> LruCache<K, V> {
    pub fn new(capacity: NonZeroUsize) -> Self {
        Self { capacity, entries: Vec::new() }
    }

    pub fn len(&self) -> usize {
        self.entries.len()
    }

    pub fn is_empty(&self) -> bool {
        self.entries.is_empty()
    }

    pub fn cap(&self) -> NonZeroUsize {
        self.capacity
    }

    /// Most recent first.
    pub fn iter(&self) -> impl DoubleEndedIterator<Item = (&K, &V)> {
        self.entries.iter().rev().map(|(key, value)| (key, value))
    }

    /// Changes no order.
    pub fn peek(&self, key: &K) -> Option<&V> {
        self.position(key).map(|at| &self.entries[at].1)
    }

    /// Changes no order.
    pub fn peek_mut(&mut self, key: &K) -> Option<&mut V> {
        self.position(key).map(|at| &mut self.entries[at].1)
    }

    /// Makes the key newest.
    pub fn promote(&mut self, key: &K) {
        if let Some(at) = self.position(key) {
            let entry = self.entries.remove(at);
            self.entries.push(entry);
        }
    }

    /// Puts the key newest. Answers what it displaced: the key's old value, or the least recent
    /// entry at the capacity.
    pub fn push(&mut self, key: K, value: V) -> Option<(K, V)> {
        let displaced = match self.position(&key) {
            Some(at) => Some(self.entries.remove(at)),
            None if self.len() >= self.capacity.get() => self.pop_lru(),
            None => None,
        };
        self.entries.push((key, value));
        displaced
    }

    /// Removes the key.
    pub fn pop(&mut self, key: &K) -> Option<V> {
        self.position(key).map(|at| self.entries.remove(at).1)
    }

    /// Removes the oldest key.
    pub fn pop_lru(&mut self) -> Option<(K, V)> {
        if self.is_empty() { None } else { Some(self.entries.remove(0)) }
    }

    pub fn clear(&mut self) {
        self.entries.clear();
    }

    /// Removes the oldest keys where there are more than the new capacity.
    pub fn resize(&mut self, capacity: NonZeroUsize) {
        while self.len() > capacity.get() {
            self.pop_lru();
        }
        self.capacity = capacity;
    }

    fn position(&self, key: &K) -> Option<usize> {
        self.entries.iter().position(|(held, _)| held == key)
    }
}
