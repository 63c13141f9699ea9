//! Cases by chance: a width list, a body of whole records for it, some damage, a record limit.

mod damage;
mod random_bytes;
mod records;
mod widths;

use super::case::{Case, Reading};
use crate::random::Random;
use damage::damage;
use records::push_records;
use widths::random_widths;

/// A range of counts, drawn as often as its weight says.
pub struct Share {
    pub weight: u64,
    pub least: usize,
    pub most: usize,
}

pub struct Sizes {
    pub widths: &'static [Share],
    /// The body lengths aimed at.
    pub bodies: &'static [Share],
    /// No body is longer.
    pub longest_body: usize,
    /// Whether a record limit of 0 may be drawn; document 01 departs from the original there.
    pub zero_limit: bool,
}

pub fn random_case(random: &mut Random, sizes: &Sizes) -> Case {
    let reading = random.pick(&Reading::ALL);
    let count = draw(random, sizes.widths);
    let mut case = Case {
        reading,
        max_records: 0,
        widths: random_widths(random, reading, count),
        body: Vec::new(),
    };
    let target = draw(random, sizes.bodies);
    let records = push_records(random, &mut case, target, sizes.longest_body);
    let least = reading.least_size(&case.widths);
    damage(random, &mut case.body, least);
    case.body.truncate(sizes.longest_body);
    case.max_records = random_limit(random, records, sizes.zero_limit);
    case
}

fn draw(random: &mut Random, shares: &[Share]) -> usize {
    let total = shares.iter().map(|share| share.weight).sum();
    let mut drawn = random.below(total);
    for share in shares {
        if drawn < share.weight {
            return share.least + random.index(share.most - share.least + 1);
        }
        drawn -= share.weight;
    }
    unreachable!("the weights add up to the total")
}

fn random_limit(random: &mut Random, records: usize, zero: bool) -> u64 {
    let records = records as u64;
    let limit = match random.below(20) {
        0..=5 => records,
        6..=7 => records.saturating_sub(1),
        8..=9 => records + 1,
        10 => 1,
        11..=12 => 1 + random.below(8),
        13..=15 => 65_536,
        _ => u64::MAX,
    };
    if limit == 0 && !(zero && random.percent(20)) {
        return 1 + random.below(3);
    }
    limit
}
