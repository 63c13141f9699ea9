//! Which bodies are expired, and the ways for bodies to go. Each is a drop that counts.

use super::{Account, Body, Branch};

impl Account {
    /// "A body is expired when a TTL is set and age is at least the TTL", age being "now minus
    /// the stored reading, or 0 if now is earlier".
    pub(super) fn is_expired(&mut self, body: &Body, clock: u64) -> bool {
        let Some(ttl) = self.limits.ttl else {
            return false;
        };
        if clock < body.clock {
            self.took(Branch::ClockBefore);
        }
        let age = clock.saturating_sub(body.clock);
        if age == ttl {
            self.took(Branch::AgeIsTtl);
        }
        age >= ttl
    }

    pub(super) fn evict_least_recent(&mut self) {
        let evicted = self.held.remove(0);
        self.drop_bodies(evicted.bodies.len() as u64);
    }

    /// Drops the expired bodies of some ids. Answers how many bodies and templates went.
    pub(super) fn prune(&mut self, clock: u64, is_meant: impl Fn(u16) -> bool) -> (u64, u64) {
        let before = self.bodies();
        let mut held = std::mem::take(&mut self.held);
        for template in held.iter_mut().filter(|template| is_meant(template.id)) {
            template.bodies.retain(|body| !self.is_expired(body, clock));
        }
        self.held = held;
        let dropped = before - self.bodies();
        self.drop_bodies(dropped);
        (dropped, self.remove_emptied())
    }

    pub(super) fn drop_where(&mut self, branch: Branch, remove: impl Fn(&mut Vec<Body>)) {
        let before = self.bodies();
        for template in &mut self.held {
            remove(&mut template.bodies);
        }
        let dropped = before - self.bodies();
        self.drop_bodies(dropped);
        if dropped > 0 {
            self.took(branch);
        }
    }

    pub(super) fn remove_emptied(&mut self) -> u64 {
        let before = self.held.len();
        self.held.retain(|template| !template.bodies.is_empty());
        (before - self.held.len()) as u64
    }

    pub(super) fn drop_bodies(&mut self, count: u64) {
        self.fates.dropped += count;
        self.dropped = self.dropped.saturating_add(count);
    }
}
