//! Bytes by chance.

use crate::random::Random;

/// Short contents get bytes that matter as prefixes; long ones repeat one word, for speed.
pub fn push_bytes(random: &mut Random, body: &mut Vec<u8>, length: usize) {
    if length <= 64 {
        body.extend((0..length).map(|_| random_byte(random)));
    } else {
        let word = random.word().to_le_bytes();
        body.extend(word.iter().cycle().take(length));
    }
}

pub fn random_byte(random: &mut Random) -> u8 {
    match random.below(10) {
        0 => random.pick(&[254, 255]),
        1 => random.word() as u8,
        _ => random.below(6) as u8,
    }
}
