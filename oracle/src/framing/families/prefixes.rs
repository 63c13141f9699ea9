//! Length prefixes, cut and whole, at the start of a body and after whole records.

use crate::framing::bodies::{Prefix, push_content, push_record};
use crate::framing::case::Reading;
use crate::framing::case_list::CaseList;
use crate::numbers::VARIABLE;
use Prefix::{Long, Short};

const LISTS: [&[u16]; 7] = [
    &[VARIABLE],
    &[VARIABLE, 2],
    &[2, VARIABLE],
    &[VARIABLE, 0],
    &[VARIABLE, VARIABLE],
    &[VARIABLE, VARIABLE, 3],
    &[VARIABLE, 9],
];

/// What follows the whole records, as it stands.
const TAILS: [&[u8]; 22] = [
    &[0],
    &[0, 0],
    &[0, 0, 0],
    &[0, 1],
    &[1],
    &[1, 0],
    &[2, 7, 7, 1, 8],
    &[254],
    &[254, 255],
    &[255],
    &[255, 0],
    &[255, 1],
    &[255, 255],
    &[255, 0, 0],
    &[255, 0, 0, 0],
    &[255, 0, 1],
    &[255, 0, 1, 97],
    &[255, 0, 2, 97],
    &[255, 0, 3, 97, 98, 99],
    &[255, 1, 0],
    &[255, 255, 255],
    &[255, 255, 255, 0, 80],
];

/// Long contents, on both sides of where the long prefix becomes the only one.
const LENGTHS: [Prefix; 7] =
    [Short(253), Short(254), Long(254), Long(255), Long(256), Long(300), Long(513)];

pub fn add(list: &mut CaseList) {
    for widths in LISTS {
        for records in 0..=2 {
            for tail in TAILS {
                let mut body = whole_records(widths, records);
                body.extend(tail);
                add_completed(list, widths, &body, records);
            }
        }
        for prefix in LENGTHS {
            add_long(list, widths, prefix);
        }
    }
}

fn whole_records(widths: &[u16], records: usize) -> Vec<u8> {
    let mut body = Vec::new();
    for record in 0..records {
        let prefix = if record == 0 { Short(1) } else { Long(2) };
        push_record(&mut body, widths, &[prefix]);
    }
    body
}

/// The body as it is, and with two bytes that may complete the cut record.
fn add_completed(list: &mut CaseList, widths: &[u16], body: &[u8], records: usize) {
    let limit = [u64::MAX, 65_536, records as u64 + 1][records];
    list.add(Reading::IpfixVariable, limit, widths, body);
    let completed = [body, &[0, 5]].concat();
    list.add(Reading::IpfixVariable, limit, widths, &completed);
}

/// One byte short, whole, and one byte over.
fn add_long(list: &mut CaseList, widths: &[u16], prefix: Prefix) {
    let mut body = Vec::new();
    push_record(&mut body, widths, &[prefix, Short(1)]);
    list.add(Reading::IpfixVariable, 1, widths, &body[..body.len() - 1]);
    list.add(Reading::IpfixVariable, 1, widths, &body);
    push_content(&mut body, 1);
    list.add(Reading::IpfixVariable, 65_536, widths, &body);
}
