//! Writes a cache anew as docs/LAYOUT.md lets it stand: other labels, places, order, clock
//! readings and counters, and anything in what is free.

use super::lent::Lent;
use crate::random::Random;

const LABELS: u64 = 1_024;

/// The areas hold a cache before and after.
pub fn redo(lent: &mut Lent, random: &mut Random) {
    let old = lent.words().to_vec();
    let old_bytes = lent.bytes().to_vec();
    let (t, b, total) = (old[0] as usize, old[1] as usize, old[3]);
    let (n, m, c) = (old[9] as usize, old[10] as usize, old[11] as usize);
    let records_at = 64 + 4 * t * b;
    let need = records_at + 8 * t;

    // All that is free, and then written over where it is not.
    let words = lent.words_mut();
    for word in words[12..need].iter_mut() {
        *word = if random.percent(50) { random.word() } else { random.below(8) };
    }
    if old[4] == 0 {
        words[5] = random.word();
    }
    words[6] = counter(random, old[6]);
    words[7] = counter(random, old[7]);

    // Other labels.
    let mut labels: Vec<(u64, u64)> = Vec::new();
    for at in 0..n + c {
        let label = loop {
            let label = match random.below(6) {
                0 => 0,
                1 => LABELS - 1,
                _ => random.below(LABELS),
            };
            if labels.iter().all(|(_, taken)| *taken != label) {
                break label;
            }
        };
        labels.push((old[records_at + 8 * at + 1], label));
    }
    let relabelled = |label: u64| {
        labels.iter().find(|(before, _)| *before == label).expect("a record's label").1
    };

    // Another recency of the held ones.
    let mut order: Vec<usize> = (0..n + c).collect();
    for at in (1..n).rev() {
        order.swap(at, random.index(at + 1));
    }
    for (at, &from) in order.iter().enumerate() {
        let (to, from) = (records_at + 8 * at, records_at + 8 * from);
        words[to] = old[from];
        words[to + 1] = relabelled(old[from + 1]);
        words[to + 2] = old[from + 2];
    }
    let mut index: Vec<usize> = (0..n + c).collect();
    index.sort_by_key(|at| words[records_at + 8 * at]);
    for (at, position) in index.into_iter().enumerate() {
        words[records_at + 8 * at + 3] = position as u64;
    }

    // Other places and clock readings.
    let mut slack = total - (0..m).map(|at| old[64 + 4 * at + 2]).sum::<u64>();
    let mut end = 0;
    let mut bodies = Vec::new();
    for at in 0..m {
        let entry = 64 + 4 * at;
        let (place, length) = (old[entry + 1], old[entry + 2]);
        let gap = if random.percent(60) { 0 } else { random.below(slack + 1) };
        slack -= gap;
        words[entry] = relabelled(old[entry]);
        words[entry + 1] = end + gap;
        words[entry + 2] = length;
        words[entry + 3] = match random.below(4) {
            0 => random.below(12),
            1 => u64::MAX - random.below(12),
            _ => old[entry + 3],
        };
        end += gap + length;
        bodies.push(((end - length) as usize, place as usize, length as usize));
    }
    let bytes = lent.bytes_mut();
    for byte in bytes[..total as usize].iter_mut() {
        *byte = random.word() as u8;
    }
    for (to, from, length) in bodies {
        bytes[to..to + length].copy_from_slice(&old_bytes[from..from + length]);
    }
}

fn counter(random: &mut Random, before: u64) -> u64 {
    match random.below(3) {
        0 => u64::MAX - random.below(4),
        1 => random.word(),
        _ => before,
    }
}
