//! Calls by chance, drawn with a view to what is held.

mod figures;
pub mod moves;
pub mod profile;

use super::account::{Account, limits_number};
use super::call::Call;
use super::limits::{Areas, Limits};
use crate::numbers::DONE;
use crate::random::Random;
use profile::Profile;

pub struct Generator {
    pub random: Random,
    profile: &'static Profile,
    /// The limits and areas of the last opening.
    opened: Limits,
    areas: Areas,
    clock: u64,
    /// How many offers are still to come before other calls.
    first_offers: u64,
    /// What `would_accept` was just asked, as an offer.
    asked: Option<Call>,
}

type Draw = fn(&mut Generator, &Account) -> Call;

impl Generator {
    pub fn new(seed: u64, profile: &'static Profile) -> Self {
        let areas = Areas { bytes: 0, words: 0 };
        Self {
            random: Random::new(seed),
            profile,
            opened: Limits::DEFAULTS,
            areas,
            clock: 0,
            first_offers: 0,
            asked: None,
        }
    }

    /// A list begins with this, and it is accepted.
    pub fn opening(&mut self) -> Call {
        self.opened = (self.profile.limits)(&mut self.random);
        self.areas = (self.profile.areas)(&mut self.random, &self.opened);
        self.asked = None;
        self.first_offers = self.random.below(self.profile.first_offers + 1);
        self.clock = match self.random.below(10) {
            0..=4 => 0,
            5..=8 => self.random.below(1_000),
            _ => u64::MAX - self.random.below(50),
        };
        Call::Open { limits: self.opened, areas: self.areas }
    }

    pub fn next(&mut self, account: &Account) -> Call {
        if let Some(offer) = self.asked.take()
            && self.random.percent(50)
        {
            return offer;
        }
        if self.first_offers > 0 {
            self.first_offers -= 1;
            return self.offer(account);
        }
        if account.chance.bodies.is_empty() {
            return self.any_call(account);
        }
        match self.random.below(10) {
            0..=2 => self.put_back(account),
            3 => self.read(account),
            4 => self.leaving_chance(account),
            _ => self.any_call(account),
        }
    }

    fn any_call(&mut self, account: &Account) -> Call {
        let weights = &self.profile.weights;
        let draws: [(u64, Draw); 8] = [
            (weights.offer, Self::offer),
            (weights.drain, Self::drain),
            (weights.put_back, Self::put_back),
            (weights.resize, Self::resize),
            (weights.clear, |_, _| Call::Clear),
            (weights.would_accept, Self::would_accept),
            (weights.read, Self::read),
            (weights.refused_opening, Self::refused_opening),
        ];
        let mut drawn = self.random.below(draws.iter().map(|(weight, _)| weight).sum());
        for (weight, draw) in draws {
            if drawn < weight {
                return draw(self, account);
            }
            drawn -= weight;
        }
        unreachable!("the number drawn is below the sum of the weights")
    }

    fn offer(&mut self, account: &Account) -> Call {
        let (id, length) = (self.id(account), self.length(account));
        Call::Offer { id, length, clock: self.next_clock(account) }
    }

    fn drain(&mut self, account: &Account) -> Call {
        Call::Drain { id: self.full_id(account), clock: self.next_clock(account) }
    }

    /// Mostly of the id drained last, and of as many bodies as may be put back.
    fn put_back(&mut self, account: &Account) -> Call {
        let handed = account.chance.bodies.len() as u64;
        let id = match self.random.below(8) {
            0 => self.id(account),
            _ => account.last_drained(),
        };
        let n = match self.random.below(10) {
            0 => 0,
            1..=2 => handed,
            3 => handed + 1,
            4 if self.random.percent(10) => u64::MAX,
            _ => 1 + self.random.below(handed.max(1)),
        };
        Call::PutBack { id, n }
    }

    fn resize(&mut self, account: &Account) -> Call {
        if self.profile.tight_resizes && self.random.percent(60) {
            return Call::Resize(self.tight(account));
        }
        Call::Resize(if self.random.percent(25) { self.spoiled() } else { self.varied() })
    }

    fn would_accept(&mut self, account: &Account) -> Call {
        let Call::Offer { id, mut length, clock } = self.offer(account) else {
            unreachable!("an offer was drawn");
        };
        if self.random.percent(5) {
            length = self.random.pick(&[account.limits.total + 1, 65_532, u64::MAX]);
        } else {
            self.asked = Some(Call::Offer { id, length, clock });
        }
        Call::WouldAccept { id, length, clock }
    }

    fn read(&mut self, account: &Account) -> Call {
        let handed = account.chance.bodies.len() as u64;
        let number = match self.random.below(8) {
            0 => handed,
            1 => self.random.pick(&[handed + 1, u64::MAX]),
            _ => self.random.below(handed.max(1)),
        };
        Call::ReadHandedOut { number }
    }

    /// A call that is refused, or of no effect, and so leaves the chance.
    fn leaving_chance(&mut self, account: &Account) -> Call {
        match self.random.below(4) {
            0 => Call::Resize(self.spoiled()),
            1 => Call::PutBack { id: self.id(account), n: 0 },
            2 => self.refused_opening(account),
            _ => Call::Offer {
                id: self.id(account),
                length: account.limits.entry + 1,
                clock: self.next_clock(account),
            },
        }
    }

    fn refused_opening(&mut self, _: &Account) -> Call {
        loop {
            let limits = self.spoiled();
            let mut areas = self.areas;
            if self.random.percent(30) {
                areas.bytes = self.random.below(limits.total.clamp(1, areas.bytes.max(1)));
            }
            if self.random.percent(30) {
                areas.words = self.random.below(areas.words.max(1));
            }
            if limits_number(&limits, areas) != DONE {
                return Call::Open { limits, areas };
            }
        }
    }
}
