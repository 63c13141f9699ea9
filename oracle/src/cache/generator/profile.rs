//! What sort of lists are drawn.

use crate::cache::limits::{Areas, Limits};
use crate::random::Random;

/// The areas that a replaying program has: those of document 01's `pendlist`.
pub const REPLAYED: Areas = Areas { bytes: 16_384, words: 4_096 };

/// How often each call is drawn, beside the others.
pub struct Weights {
    pub offer: u64,
    pub drain: u64,
    pub put_back: u64,
    pub resize: u64,
    pub clear: u64,
    pub would_accept: u64,
    pub read: u64,
    pub refused_opening: u64,
}

pub struct Profile {
    pub weights: Weights,
    pub limits: fn(&mut Random) -> Limits,
    /// The areas lent for these limits, mostly more than needed.
    pub areas: fn(&mut Random, &Limits) -> Areas,
    /// Whether a resize may bring limits that are far from the opening's, and another TTL.
    pub wide_resizes: bool,
    /// Whether most resizes bring a total near what is held, so that what stays is packed.
    pub tight_resizes: bool,
    /// The first calls of a list are offers, up to so many.
    pub first_offers: u64,
    /// Ids from 300 on, the first of them more often.
    pub ids: u64,
    pub hot_percent: u64,
    /// How often a length is one at which an answer changes. The others are drawn below these.
    pub special_percent: u64,
    /// Lengths that come up as they are, where the entry size lets them.
    pub exact_lengths: &'static [u64],
    pub lengths: &'static [u64],
}

/// Caches of a few bodies: a list comes to every branch often.
pub const SMALL: Profile = Profile {
    weights: Weights {
        offer: 520,
        drain: 150,
        put_back: 50,
        resize: 80,
        clear: 12,
        would_accept: 100,
        read: 10,
        refused_opening: 12,
    },
    limits: small_limits,
    areas: small_areas,
    wide_resizes: true,
    tight_resizes: false,
    first_offers: 8,
    ids: 4,
    hot_percent: 30,
    special_percent: 50,
    exact_lengths: &[],
    lengths: &[1, 2, 4, 12],
};

/// As many bodies as go into the areas of a replaying program, and enough calls for the
/// original's recount.
pub const MIDDLE: Profile = Profile {
    weights: Weights {
        offer: 780,
        drain: 40,
        put_back: 50,
        resize: 4,
        clear: 1,
        would_accept: 100,
        read: 20,
        refused_opening: 5,
    },
    limits: middle_limits,
    areas: |_, _| REPLAYED,
    wide_resizes: true,
    tight_resizes: false,
    first_offers: 300,
    ids: 24,
    hot_percent: 25,
    special_percent: 2,
    exact_lengths: &[],
    lengths: &[16, 64, 64, 200, 1_024],
};

/// Templates come and go, now fewer than 32 and now more, so that few are left of many.
pub const LABELS: Profile = Profile {
    weights: Weights {
        offer: 500,
        drain: 400,
        put_back: 20,
        resize: 8,
        clear: 1,
        would_accept: 60,
        read: 10,
        refused_opening: 2,
    },
    limits: labels_limits,
    areas: |_, _| REPLAYED,
    wide_resizes: true,
    tight_resizes: false,
    first_offers: 150,
    ids: 120,
    hot_percent: 0,
    special_percent: 5,
    exact_lengths: &[],
    lengths: &[8, 64],
};

/// The default limits, filled by the number of bodies and templates.
pub const DEFAULTS_BY_COUNT: Profile = Profile {
    weights: Weights {
        offer: 9_500,
        drain: 60,
        put_back: 40,
        resize: 6,
        clear: 0,
        would_accept: 300,
        read: 10,
        refused_opening: 10,
    },
    limits: |_| Limits::DEFAULTS,
    areas: |_, limits| limits.areas().expect("the default limits are legal"),
    wide_resizes: false,
    tight_resizes: false,
    first_offers: 8_000,
    ids: 320,
    hot_percent: 40,
    special_percent: 0,
    exact_lengths: &[],
    lengths: &[0, 16, 100, 1_500],
};

/// The default limits, filled by bytes.
pub const DEFAULTS_BY_BYTES: Profile = Profile {
    ids: 200,
    hot_percent: 5,
    special_percent: 4,
    lengths: &[100, 1_500, 65_531, 65_531, 65_531],
    ..DEFAULTS_BY_COUNT
};

fn small_limits(random: &mut Random) -> Limits {
    let templates = random.pick(&[1, 2, 2, 3, 3, 4]);
    let bodies = random.pick(&[1, 2, 2, 3, 3, 4]);
    let entry = random.pick(&[1, 2, 3, 5, 8, 12]);
    let total = match random.below(10) {
        0 => entry,
        1..=4 => entry + random.below(2 * entry + 1),
        _ => entry + random.below(templates * bodies * entry + 1),
    };
    Limits { templates, bodies, entry, total, ttl: any_ttl(random) }
}

fn small_areas(random: &mut Random, limits: &Limits) -> Areas {
    let needed = limits.areas().expect("small limits are legal");
    match random.below(4) {
        0 => needed,
        1 => {
            Areas { bytes: needed.bytes + random.below(12), words: needed.words + random.below(60) }
        }
        _ => REPLAYED,
    }
}

fn middle_limits(random: &mut Random) -> Limits {
    let (templates, bodies) = random.pick(&[(16, 32), (8, 100), (20, 4), (1, 900)]);
    let total = random.pick(&[16_384, 16_384, 6_000]);
    Limits { templates, bodies, entry: 1_024, total, ttl: any_ttl(random) }
}

fn labels_limits(random: &mut Random) -> Limits {
    let templates = random.pick(&[31, 32, 33, 34, 60, 100]);
    let bodies = 1 + random.below(3);
    let ttl = random.percent(30).then(|| 1 + random.below(200));
    Limits { templates, bodies, entry: 64, total: 8_000, ttl }
}

/// None, 0, small and large.
pub fn any_ttl(random: &mut Random) -> Option<u64> {
    match random.below(20) {
        0..=5 => None,
        6..=7 => Some(0),
        8..=15 => Some(1 + random.below(12)),
        16 => Some(1_000),
        17 => Some(1 << 40),
        18 => Some(1 << 63),
        _ => Some(u64::MAX),
    }
}
