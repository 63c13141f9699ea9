//! The bytes of the bodies that are offered. No answer depends on them and no row has them, so
//! that a replaying program is free to have its own.

use crate::random::Random;
use std::sync::OnceLock;

/// A body's first bytes are by its number: no two bodies of one byte or more begin alike within
/// 256 offers, and none of two bytes or more within 32,768.
const HEAD: usize = 2;

/// Where a body's window of the table can begin.
const STARTS: usize = 1 << 20;

/// One more than the longest that a cache takes.
const LONGEST: usize = 65_532;

/// Bytes by chance. They have no period: what moves by whole blocks is seen in a wrong place.
fn table() -> &'static [u8] {
    const SEED: u64 = 0;
    static TABLE: OnceLock<Vec<u8>> = OnceLock::new();
    TABLE.get_or_init(|| {
        let mut random = Random::new(SEED);
        (0..(STARTS + LONGEST).div_ceil(8)).flat_map(|_| random.word().to_le_bytes()).collect()
    })
}

/// What the table has for an offer. Short bodies of two offers may have the same there.
fn window(offer: u64, length: usize) -> &'static [u8] {
    &table()[Random::new(offer).index(STARTS)..][..length]
}

fn head(offer: u64) -> [u8; HEAD] {
    let first = (offer as u8).wrapping_mul(7);
    let step = ((offer / 256) as u8).wrapping_mul(2).wrapping_add(1);
    [first, first.wrapping_add(step)]
}

/// The body of an offer by its number, counted from 0 since the opening.
pub fn body(offer: u64, length: u64) -> Vec<u8> {
    let mut bytes = window(offer, length as usize).to_vec();
    bytes.iter_mut().zip(head(offer)).for_each(|(byte, of_head)| *byte = of_head);
    bytes
}

/// Whether the bytes are those of an offer. Every byte that is held is asked after every call, so
/// nothing is made here that they are compared with.
pub fn is_body(offer: u64, bytes: &[u8]) -> bool {
    let (first, others) = bytes.split_at(bytes.len().min(HEAD));
    head(offer)[..first.len()] == *first && window(offer, bytes.len())[first.len()..] == *others
}

#[cfg(test)]
mod tests {
    use super::{body, is_body, table};

    #[test]
    fn tells_every_changed_byte() {
        for (offer, length) in [(0, 0), (3, 1), (9, 2), (300, 255), (5, 256), (70_000, 700)] {
            let right = body(offer, length);
            assert!(is_body(offer, &right));
            for at in 0..right.len() {
                let mut wrong = right.clone();
                wrong[at] ^= 1;
                assert!(!is_body(offer, &wrong), "offer {offer}, byte {at}");
            }
        }
    }

    #[test]
    fn tells_short_bodies_of_near_offers_apart() {
        for offer in [0, 1, 255, 256, 40_000] {
            let [one, two] = [1, 2].map(|length| body(offer, length));
            assert!((1..256).all(|later| !is_body(offer + later, &one)));
            assert!((1..32_768).all(|later| !is_body(offer + later, &two)));
        }
    }

    /// The lengths of the blocks that bodies are moved in, and what divides both.
    #[test]
    fn no_64_bytes_come_again_one_block_on() {
        for apart in [64, 256, 512, 2_048] {
            let mut alike = 0;
            for (byte, later) in table().iter().zip(&table()[apart..]) {
                alike = if byte == later { alike + 1 } else { 0 };
                assert!(alike < 64, "bytes {apart} apart");
            }
        }
    }
}
