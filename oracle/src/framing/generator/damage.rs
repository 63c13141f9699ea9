//! What may befall a body of whole records: padding, a cut, changed bytes, or nothing.

use super::random_bytes::{push_bytes, random_byte};
use crate::random::Random;

pub fn damage(random: &mut Random, body: &mut Vec<u8>, least: usize) {
    match random.below(20) {
        0..=6 => {}
        7..=10 => {
            let length = 1 + random.index(least.min(40) + 3);
            push_bytes(random, body, length);
        }
        11..=14 => {
            let cut = 1 + random.index(6);
            body.truncate(body.len().saturating_sub(cut));
        }
        15 => {
            let length = random.index(body.len() + 1);
            body.truncate(length);
        }
        16 if !body.is_empty() => {
            body.remove(0);
        }
        _ => damage_bytes(random, body),
    }
}

fn damage_bytes(random: &mut Random, body: &mut [u8]) {
    if body.is_empty() {
        return;
    }
    for _ in 0..=random.below(3) {
        let at = random.index(body.len());
        body[at] = random_byte(random);
    }
}
