//! The original cache with the same content.

use crate::shape::{NEW_ID, NOW, Shape, id_of};
use oracle::original::{Bodies, Cache};
use std::collections::VecDeque;

pub struct Held {
    pub cache: Cache,
    /// Ids by recency, least recent first.
    pub order: VecDeque<u16>,
    /// What was handed out.
    pub handed: Option<Bodies>,
    per: usize,
    length: usize,
    /// How many ids `next_id` gave.
    given: usize,
}

impl Held {
    pub fn new(shape: &Shape) -> Self {
        let cache = Cache::open(shape.limits).expect("legal limits");
        let (per, length) = (shape.per, shape.length);
        let mut held = Self { cache, order: VecDeque::new(), handed: None, per, length, given: 0 };
        held.fill(shape);
        if shape.handed_out {
            let newest = held.newest();
            held.handed = Some(held.cache.drain(newest, NOW));
        }
        held
    }

    /// All templates of the shape, into an empty cache.
    pub fn fill(&mut self, shape: &Shape) {
        self.order.clear();
        for template in 0..shape.templates {
            let clock = shape.cached_at(template);
            let bodies = Bodies::of(shape.count_of(template), self.length, clock);
            self.cache.restore_replay_suffix(id_of(template), bodies);
            self.order.push_back(id_of(template));
        }
        assert_eq!(self.cache.figures()[0], shape.bodies() as u64);
    }

    pub fn newest(&self) -> u16 {
        *self.order.back().expect("there is a template")
    }

    /// Puts a whole template in as the newest one.
    pub fn add(&mut self, id: u16) {
        self.cache.restore_replay_suffix(id, Bodies::of(self.per, self.length, 0));
        self.order.push_back(id);
    }

    /// Puts the bodies of the newest template back that were expired, in the place of what it has.
    pub fn put_expired(&mut self) {
        let newest = self.newest();
        self.cache.drain(newest, NOW);
        self.cache.restore_replay_suffix(newest, Bodies::of(self.per, self.length, 0));
    }

    /// Takes the last body of an id away that was just offered, and leaves the id newest.
    pub fn take_back(&mut self, id: u16) {
        let mut bodies = self.cache.drain(id, NOW);
        bodies.drop_last();
        self.cache.restore_replay_suffix(id, bodies);
    }

    /// An id that is not held, where each one given is added as the newest and the least recent
    /// is evicted: one more than the templates are used in turn.
    pub fn next_id(&mut self) -> u16 {
        let id = NEW_ID + (self.given % (self.order.len() + 1)) as u16;
        self.given += 1;
        id
    }
}
