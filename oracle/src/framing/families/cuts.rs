//! Valid bodies of several records, cut at every byte: the first, a middle and the last record
//! lose their ends, in contents and in prefixes.

use super::limits_around;
use crate::framing::bodies::{Prefix, push_record};
use crate::framing::case::Reading;
use crate::framing::case_list::CaseList;
use crate::numbers::VARIABLE;
use Prefix::{Long, Short};

struct Template {
    widths: &'static [u16],
    /// The prefixes of each record.
    records: [&'static [Prefix]; 3],
}

const TEMPLATES: [Template; 9] = [
    Template { widths: &[VARIABLE], records: [&[Short(3)], &[Long(2)], &[Short(4)]] },
    Template { widths: &[VARIABLE, 2], records: [&[Short(2)], &[Short(0)], &[Long(1)]] },
    Template { widths: &[VARIABLE, 2], records: [&[Long(0)], &[Short(5)], &[Short(3)]] },
    Template { widths: &[3, VARIABLE], records: [&[Short(1)], &[Long(3)], &[Short(2)]] },
    Template {
        widths: &[VARIABLE, VARIABLE],
        records: [&[Short(0), Short(2)], &[Long(1), Short(0)], &[Short(1), Long(2)]],
    },
    Template { widths: &[1, VARIABLE, 4], records: [&[Short(2)], &[Short(1)], &[Short(0)]] },
    Template { widths: &[VARIABLE, 0], records: [&[Short(1)], &[Long(1)], &[Short(2)]] },
    Template { widths: &[0, VARIABLE, 5], records: [&[Short(1)], &[Short(0)], &[Long(0)]] },
    Template {
        widths: &[2, VARIABLE, 1, VARIABLE],
        records: [&[Short(1), Short(0)], &[Short(0), Long(2)], &[Short(3), Short(1)]],
    },
];

pub fn add(list: &mut CaseList) {
    for template in &TEMPLATES {
        let mut body = Vec::new();
        for prefixes in template.records {
            push_record(&mut body, template.widths, prefixes);
        }
        for length in 0..=body.len() {
            for limit in limits_around(template.records.len()).chain([u64::MAX]) {
                list.add(Reading::IpfixVariable, limit, template.widths, &body[..length]);
            }
        }
        cut_long_content(list, template.widths);
    }
}

/// A content of more than 254 bytes, cut near both of its ends only.
fn cut_long_content(list: &mut CaseList, widths: &[u16]) {
    let mut body = Vec::new();
    push_record(&mut body, widths, &[Long(257)]);
    let near_ends = (0..6).chain(body.len() - 4..=body.len());
    for length in near_ends {
        list.add(Reading::IpfixVariable, u64::MAX, widths, &body[..length]);
    }
}
