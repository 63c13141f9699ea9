//! Lists in which bodies move often within the byte area, by all sorts of lengths and distances.

use super::profile::{Profile, Weights};
use crate::cache::limits::{Areas, Limits};
use crate::random::Random;

/// The longest area in which bodies are moved in blocks of 2,048 bytes; in longer ones the blocks
/// have 512 (`crates/areas/src/bytes.rt`).
const BORDER: u64 = 524_288;

const MIB: u64 = 1 << 20;

/// Areas of 100 bytes to 4 MiB, filled up, so that offers often drop bodies and pack the others.
pub const MOVES: Profile = Profile {
    weights: Weights {
        offer: 800,
        drain: 50,
        put_back: 15,
        resize: 30,
        clear: 0,
        would_accept: 20,
        read: 5,
        refused_opening: 2,
    },
    limits: any_limits,
    areas,
    wide_resizes: false,
    tight_resizes: true,
    first_offers: 200,
    ids: 100,
    hot_percent: 10,
    special_percent: 15,
    exact_lengths: &[511, 512, 512, 512, 513, 1_024, 2_047, 2_048, 2_048, 2_048, 2_049, 4_096],
    lengths: &[600, 2_300, 65_531, 65_531],
};

/// The same with fewer bytes, for a memory checker.
pub const SHORT_MOVES: Profile =
    Profile { limits: |random| limits_of(random, 5_000, 100_000), first_offers: 50, ..MOVES };

/// The same in areas above 4 MiB: one list each, and how many calls fill the area and then go on.
pub static LARGE_MOVES: [(Profile, u64); 3] = [
    (Profile { limits: |_| Limits { total: 6 * MIB, ..LARGE_LIMITS }, ..LARGE }, 700),
    (Profile { limits: |_| Limits { total: 16 * MIB, ..LARGE_LIMITS }, ..LARGE }, 1_000),
    (Profile { limits: |_| LARGE_LIMITS, ..LARGE }, 2_200),
];

const LARGE_LIMITS: Limits =
    Limits { templates: 1_000, bodies: 8, entry: 65_531, total: 64 * MIB, ttl: None };

/// Most bodies are long, so that fewer fill an area, and of many ids, so that an eviction drops few
/// of them. Drains are few, and no resize takes much away.
const LARGE: Profile = Profile {
    weights: Weights { drain: 15, ..MOVES.weights },
    tight_resizes: false,
    first_offers: 1_500,
    ids: 1_200,
    hot_percent: 0,
    special_percent: 10,
    exact_lengths: &[65_531, 65_531, 65_024, 63_488],
    lengths: &[65_531],
    ..MOVES
};

/// Totals on both sides of the border and at it, most of them with room for bodies above a block.
fn any_limits(random: &mut Random) -> Limits {
    match random.below(10) {
        0 => limits_of(random, 100, 20_000),
        1..=4 => limits_of(random, 20_000, BORDER),
        5..=6 => {
            let total = random.pick(&[BORDER - 1, BORDER, BORDER + 1]);
            limits_of(random, total, total)
        }
        _ => limits_of(random, BORDER, 4 * MIB),
    }
}

/// A total between these two, and as many bodies as fill it.
fn limits_of(random: &mut Random, least: u64, most: u64) -> Limits {
    let total = between(random, least, most);
    let entry = (total / random.pick(&[2, 8, 20, 40, 60])).clamp(1, 65_531);
    let templates = random.pick(&[4, 20, 100, 100]);
    let bodies = 6 * total / entry / templates + 1 + random.below(3);
    let ttl = random.percent(20).then(|| 20 + random.below(600));
    Limits { templates, bodies, entry, total, ttl }
}

/// Each doubling of the least comes up as often as any other.
fn between(random: &mut Random, least: u64, most: u64) -> u64 {
    let doublings = ((most - 1) / least).max(1).ilog2();
    let base = least << random.below(u64::from(doublings) + 1);
    (base + random.below(base)).min(most)
}

/// The need, a little more, or an area above the border for a total up to it.
fn areas(random: &mut Random, limits: &Limits) -> Areas {
    let needed = limits.areas().expect("these limits are legal");
    match random.below(5) {
        0 => Areas { bytes: needed.bytes.max(BORDER + 1 + random.below(9)), ..needed },
        1 => {
            Areas { bytes: needed.bytes + random.below(99), words: needed.words + random.below(99) }
        }
        _ => needed,
    }
}
