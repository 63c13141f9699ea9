//! Document 01's rules as they stand there, for setting beside the original: what a history of
//! calls answers and leaves, and which ways the calls went.

mod drain;
mod notes;
mod offer;
mod removal;
mod resize;

use super::branch::Branch;
use super::call::{Answer, Call};
use super::limits::{Areas, Limits};
use crate::numbers::DONE;
pub use resize::limits_number;
use std::collections::BTreeSet;

/// A body by the number of its offer, which gives its bytes.
#[derive(Debug, Clone, Copy, PartialEq, Eq)]
pub struct Body {
    pub offer: u64,
    pub length: u64,
    pub clock: u64,
}

/// A template with its bodies, oldest first.
#[derive(Debug, Clone, Default)]
pub struct Template {
    pub id: u16,
    pub bodies: Vec<Body>,
}

/// What became of accepted bodies that are not held.
#[derive(Debug, Default)]
struct Fates {
    handed_out: u64,
    dropped: u64,
    cleared: u64,
}

#[derive(Debug)]
pub struct Account {
    pub limits: Limits,
    areas: Areas,
    /// Least recent first.
    pub held: Vec<Template>,
    /// The last drain's id and bodies while they may be put back. No bodies: no chance.
    pub chance: Template,
    pub cached: u64,
    pub dropped: u64,
    pub offers: u64,
    fates: Fates,
    /// Offers refused with 6, 20 or 21.
    refused: u64,
    branches: BTreeSet<Branch>,
    /// What `would_accept` was asked by the last call, and its answer.
    asked: Option<(Call, bool)>,
    /// The last chance, ended or not, and whether a call came since.
    last_drain: Template,
    called_since_drain: bool,
}

impl Account {
    pub fn open(limits: &Limits, areas: Areas) -> Result<Self, u32> {
        match limits_number(limits, areas) {
            DONE => Ok(Self {
                limits: *limits,
                areas,
                held: Vec::new(),
                chance: Template::default(),
                cached: 0,
                dropped: 0,
                offers: 0,
                fates: Fates::default(),
                refused: 0,
                branches: BTreeSet::from([Branch::Opened]),
                asked: None,
                last_drain: Template::default(),
                called_since_drain: false,
            }),
            number => Err(number),
        }
    }

    /// The account of a cache that holds these and handed out these, when so many offers were
    /// made and nothing was dropped.
    #[cfg(feature = "live")]
    pub fn of_areas(
        limits: &Limits,
        areas: Areas,
        held: Vec<Template>,
        chance: Template,
        offers: u64,
    ) -> Self {
        let mut account = Self::open(limits, areas).expect("a cache has legal limits");
        account.held = held;
        account.fates.handed_out = chance.bodies.len() as u64;
        account.cached = account.bodies() + account.fates.handed_out;
        account.offers = offers;
        account.last_drain = chance.clone();
        account.chance = chance;
        account
    }

    /// Any call but an opening that is accepted.
    pub fn call(&mut self, call: &Call) -> Answer {
        self.branches.clear();
        let asked = self.asked.take();
        let had_chance = self.has_chance();
        let answer = match *call {
            Call::Open { limits, areas } => {
                self.took(Branch::OpenRefused);
                Answer::number(limits_number(&limits, areas))
            }
            Call::Offer { id, length, clock } => Answer::number(self.offer(id, length, clock)),
            Call::Drain { id, clock } => Answer::value(self.drain(id, clock)),
            Call::PutBack { id, n } => Answer::number(self.put_back(id, n)),
            Call::Resize(limits) => self.resize(&limits),
            Call::Clear => {
                self.clear();
                Answer::number(DONE)
            }
            Call::WouldAccept { id, length, clock } => {
                let yes = self.would_accept(id, length, clock);
                self.asked = Some((Call::Offer { id, length, clock }, yes));
                Answer::value(u64::from(yes))
            }
            Call::ReadHandedOut { number } => self.read(number),
        };
        self.note_asked(call, answer.number, asked);
        self.note_chance(call, answer.number, had_chance);
        self.check();
        answer
    }

    /// The id of the last drain that found something.
    pub fn last_drained(&self) -> u16 {
        self.last_drain.id
    }

    /// The ways that the last call went.
    pub fn branches(&self) -> impl Iterator<Item = Branch> {
        self.branches.iter().copied()
    }

    pub fn bytes(&self) -> u64 {
        self.held.iter().flat_map(|template| &template.bodies).map(|body| body.length).sum()
    }

    pub fn bodies(&self) -> u64 {
        self.held.iter().map(|template| template.bodies.len() as u64).sum()
    }

    fn at_template_limit(&self) -> bool {
        self.held.len() as u64 >= self.limits.templates
    }

    fn position(&self, id: u16) -> Option<usize> {
        self.held.iter().position(|template| template.id == id)
    }

    fn has_chance(&self) -> bool {
        !self.chance.bodies.is_empty()
    }

    fn end_chance(&mut self) {
        self.chance = Template::default();
    }

    /// "Accepted = held + handed out + dropped + cleared = `pending_cached`; `pending_dropped` =
    /// dropped + offers refused with 6, 20 or 21", and the limits are kept.
    fn check(&self) {
        let Fates { handed_out, dropped, cleared } = self.fates;
        assert_eq!(self.cached, self.bodies() + handed_out + dropped + cleared);
        assert_eq!(self.dropped, dropped + self.refused);
        assert!(self.held.len() as u64 <= self.limits.templates);
        assert!(self.bytes() <= self.limits.total);
        for template in &self.held {
            assert!((1..=self.limits.bodies).contains(&(template.bodies.len() as u64)));
            assert!(template.bodies.iter().all(|body| body.length <= self.limits.entry));
        }
    }
}
