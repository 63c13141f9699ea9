//! Width lists by chance.

use crate::framing::case::Reading;
use crate::numbers::VARIABLE;
use crate::random::Random;

/// Width lists of a few kinds; very long lists get small widths, or no record would fit.
pub fn random_widths(random: &mut Random, reading: Reading, count: usize) -> Vec<u16> {
    let kind = random.below(if count > 100 { 4 } else { 8 });
    // In the fixed readings 65,535 is longer than any body: seldom worth a case.
    let keep_variable = reading == Reading::IpfixVariable || random.percent(3);
    let mut widths: Vec<u16> = (0..count).map(|_| random_width(random, kind)).collect();
    if !keep_variable {
        for width in &mut widths {
            if *width == VARIABLE {
                *width = 1 + random.below(5) as u16;
            }
        }
    }
    widths
}

fn random_width(random: &mut Random, kind: u64) -> u16 {
    match kind {
        0 => VARIABLE,
        1 if random.percent(98) => 0,
        2 => random.pick(&[0, 1]),
        3 => random.pick(&[1, VARIABLE, VARIABLE]),
        4 => random.below(9) as u16,
        5 if random.percent(5) => random.pick(&[255, 1024, 1500, 65_530, 65_531, 65_534]),
        6 => random.pick(&[VARIABLE, VARIABLE, 0, 1, 2, 4]),
        _ => random.pick(&[1, 2, 4, 4, 8, 16]),
    }
}
