//! Bodies of whole records by chance.

use super::random_bytes::push_bytes;
use crate::framing::bodies::Prefix;
use crate::framing::case::{Case, Reading};
use crate::numbers::VARIABLE;
use crate::random::Random;

/// Whole records up to the target length, and at least one if any fits; answers how many.
pub fn push_records(random: &mut Random, case: &mut Case, target: usize, longest: usize) -> usize {
    let least = case.reading.least_size(&case.widths);
    if least == 0 || least > longest {
        push_bytes(random, &mut case.body, target);
        return 0;
    }
    if case.reading != Reading::IpfixVariable {
        let records = (target / least).max(1);
        push_bytes(random, &mut case.body, records * least);
        return records;
    }
    push_variable_records(random, case, target, longest)
}

fn push_variable_records(
    random: &mut Random,
    case: &mut Case,
    target: usize,
    longest: usize,
) -> usize {
    let longest_content = random.pick(&[1, 3, 8, 40, 254, 300, 1500]);
    let mut records = 0;
    loop {
        let start = case.body.len();
        push_random_record(random, case, longest_content);
        let bound = if records == 0 { longest } else { target };
        if case.body.len() > bound {
            case.body.truncate(start);
            break;
        }
        records += 1;
    }
    if random.percent(50) {
        records += push_filling_record(random, case, target);
    }
    records
}

fn push_random_record(random: &mut Random, case: &mut Case, longest_content: u64) {
    for &width in &case.widths {
        let length = if width == VARIABLE {
            let prefix = random_prefix(random, longest_content);
            prefix.push(&mut case.body);
            prefix.length()
        } else {
            usize::from(width)
        };
        push_bytes(random, &mut case.body, length);
    }
}

/// Mostly the shortest form, sometimes a long prefix on a short length.
fn random_prefix(random: &mut Random, longest_content: u64) -> Prefix {
    let length =
        if random.percent(10) { longest_content } else { random.below(longest_content + 1) };
    if length >= 255 || random.percent(10) {
        Prefix::Long(length as u16)
    } else {
        Prefix::Short(length as u8)
    }
}

/// One record that ends the body at the target exactly: its first variable field takes what the
/// others, left as short as they can be, do not. Answers the records added, 0 or 1.
fn push_filling_record(random: &mut Random, case: &mut Case, target: usize) -> usize {
    let least = case.reading.least_size(&case.widths);
    let left = target.saturating_sub(case.body.len());
    if left < least + 2 || !case.widths.contains(&VARIABLE) {
        return 0;
    }
    let mut fill = Some(Prefix::Long((left - least - 2) as u16));
    for &width in &case.widths {
        if width == VARIABLE {
            let prefix = fill.take().unwrap_or(Prefix::Short(0));
            prefix.push(&mut case.body);
            push_bytes(random, &mut case.body, prefix.length());
        } else {
            push_bytes(random, &mut case.body, usize::from(width));
        }
    }
    1
}
