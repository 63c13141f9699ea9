//! What a cache holds before a measured call.

use oracle::original::Limits;

/// The most bodies that a cache can have room for, and the most bytes.
const MOST_BODIES: usize = 262_144;
pub const MOST_BYTES: usize = 67_108_864;
const MOST_TEMPLATES: usize = 1_024;

/// Longer than any run's clock readings: nothing is expired.
const TTL: u64 = 1_000_000_000_000;

/// With this one, bodies that were cached at 0 are expired at `NOW`, and those of `NOW` are not.
const SHORT_TTL: u64 = 1_000;

/// Whose bodies are expired.
#[derive(Clone, Copy, PartialEq, Eq, Debug)]
pub enum Expired {
    None,
    /// Those of the newest template.
    Newest,
    All,
}

/// The order in which the bodies arrived.
#[derive(Clone, Copy, PartialEq, Eq, Debug)]
pub enum Order {
    /// One of each template in turn.
    Turns,
    /// All of a template, then all of the next.
    Blocks,
    /// By chance.
    Chance,
    /// The least recent template's bodies near the end: behind them lies one of each other template.
    LeastRecentNearEnd,
}

/// The measured calls.
#[derive(Clone, Copy, PartialEq, Eq, Debug)]
pub enum Call {
    Open,
    WouldAccept,
    Figures,
    PlaceHandedOut,
    OfferHeld,
    OfferNew,
    OfferFull,
    /// A new id where the templates are at their limit.
    OfferEvicts,
    /// A held id where the bytes are at their limit, so that all other bodies are packed.
    OfferEvictsBytes,
    /// A held id where the bytes have room, but in front of the bodies only.
    OfferPacks,
    /// A body over the entry size, refused with 6.
    OfferLong,
    /// A held id, all of whose bodies are expired.
    OfferExpired,
    /// A new id where the templates are at their limit, and all bodies are expired.
    OfferPrunes,
    Drain,
    /// An id, all of whose bodies are expired.
    DrainExpired,
    PutBack,
    Resize,
    /// To half the templates.
    ResizeHalves,
    Clear,
}

/// A cache and the call that is measured on it.
#[derive(Clone, Copy, Debug)]
pub struct Shape {
    pub call: Call,
    pub limits: Limits,
    /// Templates, the handed-out one among them.
    pub templates: usize,
    /// Bodies of each template, but the newest may have one less.
    pub per: usize,
    pub newest_has_one_less: bool,
    pub length: usize,
    /// Free bytes before the first body.
    pub gap: usize,
    /// The length of the offered body.
    pub offered: usize,
    pub expired: Expired,
    pub order: Order,
    /// The labels begin at this one.
    pub first_label: usize,
    /// Whether the newest template is handed out.
    pub handed_out: bool,
}

impl Shape {
    /// A cache for the call with so many templates and bodies, or nearly so where the call needs
    /// room that the most limits do not leave.
    pub fn new(call: Call, templates: usize, bodies: usize, ttl: bool, length: usize) -> Self {
        let one_more = matches!(call, Call::OfferNew);
        let templates = templates.min(MOST_TEMPLATES - usize::from(one_more));
        let most = templates + usize::from(one_more);
        let per = (bodies / templates).min(MOST_BODIES / most).max(1);
        let spare = matches!(call, Call::OfferHeld | Call::OfferEvictsBytes | Call::OfferPacks);
        let room = spare && most * (per + 1) <= MOST_BODIES;
        let cap = per + usize::from(room);
        let newest_has_one_less = spare && !room;
        let bodies = templates * per - usize::from(newest_has_one_less);
        let gap = if call == Call::OfferPacks { length } else { 0 };
        let total = match call {
            Call::OfferEvictsBytes => bodies * length,
            Call::OfferPacks => bodies * length + gap,
            _ => (bodies + 1) * length,
        };
        assert!(total <= MOST_BYTES, "{total} bytes");
        let expired = match call {
            Call::OfferExpired | Call::DrainExpired => Expired::Newest,
            Call::OfferPrunes => Expired::All,
            _ => Expired::None,
        };
        let ttl = ttl.then_some(if expired == Expired::None { TTL } else { SHORT_TTL });
        Self {
            call,
            limits: Limits { templates: most, bodies: cap, entry: length, total, ttl },
            templates,
            per,
            newest_has_one_less,
            length,
            gap,
            offered: length + usize::from(call == Call::OfferLong),
            expired,
            order: Order::Turns,
            first_label: 0,
            handed_out: matches!(call, Call::PutBack | Call::PlaceHandedOut),
        }
    }

    /// The same with a gap before the first body that a shorter body has room in.
    pub fn with_gap(self, gap: usize) -> Self {
        let total = self.limits.total - self.gap + gap;
        Self { gap, offered: gap, limits: Limits { total, ..self.limits }, ..self }
    }

    pub fn count_of(&self, template: usize) -> usize {
        self.per - usize::from(self.newest_has_one_less && template == self.newest())
    }

    /// When the bodies of a template were cached, where some are expired.
    pub fn cached_at(&self, template: usize) -> u64 {
        match self.expired {
            Expired::Newest if template != self.newest() => NOW,
            _ => 0,
        }
    }

    pub fn label_of(&self, template: usize) -> u64 {
        (self.first_label + template) as u64
    }

    pub fn newest(&self) -> usize {
        self.templates - 1
    }

    pub fn bodies(&self) -> usize {
        self.templates * self.per - usize::from(self.newest_has_one_less)
    }

    /// The template of each body, in the order of arrival. Templates are by recency.
    pub fn arrivals(&self) -> Vec<usize> {
        let mut arrivals = Vec::with_capacity(self.bodies());
        match self.order {
            Order::Turns | Order::Chance => {
                for round in 0..self.per {
                    let held = (0..self.templates).filter(|&at| round < self.count_of(at));
                    arrivals.extend(held);
                }
            }
            Order::Blocks => {
                for template in 0..self.templates {
                    arrivals.extend((0..self.count_of(template)).map(|_| template));
                }
            }
            Order::LeastRecentNearEnd => {
                for round in 1..self.per {
                    let held = (1..self.templates).filter(|&at| round < self.count_of(at));
                    arrivals.extend(held);
                }
                arrivals.extend((0..self.count_of(0)).map(|_| 0));
                arrivals.extend((1..self.templates).filter(|&at| 0 < self.count_of(at)));
            }
        }
        if self.order == Order::Chance {
            shuffle(&mut arrivals);
        }
        arrivals
    }
}

fn shuffle(arrivals: &mut [usize]) {
    let mut state = 0x9E37_79B9_7F4A_7C15_u64;
    for at in (1..arrivals.len()).rev() {
        state ^= state << 13;
        state ^= state >> 7;
        state ^= state << 17;
        arrivals.swap(at, (state % (at as u64 + 1)) as usize);
    }
}

/// The id of a template: neither rising nor falling with its recency.
pub fn id_of(template: usize) -> u16 {
    256 + (template as u16).wrapping_mul(389) % 1_024
}

/// An id that no template has.
pub const NEW_ID: u16 = 5_000;

/// The clock reading of the measured calls.
pub const NOW: u64 = 1_000_000;
