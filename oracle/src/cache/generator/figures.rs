//! Ids, lengths, clock readings and limits by chance, drawn around those where an answer changes.

use super::Generator;
use super::profile::any_ttl;
use crate::cache::account::{Account, Body};
use crate::cache::limits::Limits;

const FIRST_ID: u16 = 300;

/// How often a length is an exact one, where the profile has such.
const EXACT_PERCENT: u64 = 30;

impl Generator {
    /// Mostly one that is held.
    pub(super) fn id(&mut self, account: &Account) -> u16 {
        let held = &account.held;
        match self.random.below(20) {
            0..=6 if !held.is_empty() => held[self.random.index(held.len())].id,
            7 if !held.is_empty() => held[0].id,
            8 if !account.chance.bodies.is_empty() => account.chance.id,
            9 if self.random.percent(10) => self.random.pick(&[0, 1, 256, 65_535]),
            _ if self.random.percent(self.profile.hot_percent) => FIRST_ID,
            _ => FIRST_ID + self.random.below(self.profile.ids) as u16,
        }
    }

    /// Mostly the id with the most bodies, or else any.
    pub(super) fn full_id(&mut self, account: &Account) -> u16 {
        let fullest = account.held.iter().max_by_key(|template| template.bodies.len());
        match fullest {
            Some(template) if self.random.percent(50) => template.id,
            _ => self.id(account),
        }
    }

    pub(super) fn length(&mut self, account: &Account) -> u64 {
        let Limits { entry, total, .. } = account.limits;
        let exact = self.profile.exact_lengths;
        if !exact.is_empty() && self.random.percent(EXACT_PERCENT) {
            return self.random.pick(exact).min(entry);
        }
        if !self.random.percent(self.profile.special_percent) {
            let bound = self.random.pick(self.profile.lengths).min(entry);
            return self.random.below(bound + 1);
        }
        let room = total.saturating_sub(account.bytes());
        match self.random.below(12) {
            0..=2 => 0,
            3..=4 => 1,
            5..=6 => entry,
            7 => entry + 1,
            8..=9 => room.min(entry),
            10 => (room + 1).min(entry),
            _ => entry - 1,
        }
    }

    /// Stands still, goes on, jumps and goes back, often to where a body's age is near the TTL.
    pub(super) fn next_clock(&mut self, account: &Account) -> u64 {
        let clock = self.clock;
        self.clock = match self.random.below(100) {
            0..=39 => clock,
            40..=75 => clock.saturating_add(self.random.below(4)),
            76..=89 => self.near_ttl(account).unwrap_or(clock),
            90..=93 => clock.saturating_sub(self.random.below(8)),
            94..=96 => self.any_body(account).map_or(clock, |body| body.clock),
            97 => 0,
            98 => clock.saturating_add(1 << 40),
            _ => self.random.pick(&[u64::MAX - 1, u64::MAX, self.clock / 2]),
        };
        self.clock
    }

    fn near_ttl(&mut self, account: &Account) -> Option<u64> {
        let ttl = account.limits.ttl?;
        let body = self.any_body(account)?;
        let reading = body.clock.saturating_add(ttl);
        Some(match self.random.below(3) {
            0 => reading.saturating_sub(1),
            1 => reading,
            _ => reading.saturating_add(1),
        })
    }

    fn any_body(&mut self, account: &Account) -> Option<Body> {
        if account.held.is_empty() {
            return None;
        }
        let template = &account.held[self.random.index(account.held.len())];
        Some(template.bodies[self.random.index(template.bodies.len())])
    }

    /// Limits near those of the opening.
    pub(super) fn varied(&mut self) -> Limits {
        let base = self.opened;
        let mut vary = |figure: u64| match self.random.below(8) {
            0 if self.profile.wide_resizes => (figure / 2).max(1),
            1 | 2 => figure - 1,
            3 => figure + 1,
            _ => figure,
        };
        let mut limits = Limits {
            templates: vary(base.templates),
            bodies: vary(base.bodies),
            entry: vary(base.entry),
            total: vary(base.total),
            ttl: base.ttl,
        };
        if self.profile.wide_resizes && self.random.percent(30) {
            limits.total = limits.entry + self.random.below(limits.entry + 1);
        }
        if self.profile.wide_resizes && self.random.percent(30) {
            limits.ttl = any_ttl(&mut self.random);
        }
        limits
    }

    /// The opening's limits with a total a little above or below what is held.
    pub(super) fn tight(&mut self, account: &Account) -> Limits {
        let held = account.bytes();
        let total = match self.random.below(4) {
            0 => held,
            1 => held + self.random.below(600),
            2 => held + self.random.below(self.opened.total / 4 + 1),
            _ => held - self.random.below(held / 4 + 1),
        };
        let total = total.clamp(1, self.opened.total);
        Limits { total, entry: self.opened.entry.min(total), ..self.opened }
    }

    /// Limits of which some are out of range.
    pub(super) fn spoiled(&mut self) -> Limits {
        let mut limits = self.varied();
        for _ in 0..=self.random.below(3) {
            match self.random.below(5) {
                0 => limits.templates = self.random.pick(&[0, 1_024, 1_025, 1 << 63, u64::MAX]),
                1 => limits.bodies = self.random.pick(&[0, 262_144, 262_145, 1 << 63, u64::MAX]),
                2 => limits.entry = self.random.pick(&[0, 65_531, 65_532, 1 << 32, u64::MAX]),
                3 => limits.total = self.random.pick(&[0, 67_108_864, 67_108_865, u64::MAX]),
                _ => limits.total = limits.entry.saturating_sub(1),
            }
        }
        limits
    }
}
