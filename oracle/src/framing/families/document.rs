//! Document 01's own framing cases.

use super::LARGE;
use crate::framing::bodies::content;
use crate::framing::case::Reading;
use crate::framing::case_list::CaseList;
use crate::numbers::VARIABLE;

const HEAD: [u8; 6] = [0x03, 0x61, 0x62, 0x63, 0x00, 0x50];

pub fn add(list: &mut CaseList) {
    for limit in LARGE {
        list.add(Reading::V9Fixed, limit, &[4, 4], &content(19));
        list.add(Reading::V9Fixed, limit, &[4, 4], &content(20));
        list.add(Reading::IpfixFixed, limit, &[4, 4], &content(20));
        for tail in [&[][..], &[0; 2], &[0; 3], &[0xFF; 3]] {
            let body = [&HEAD, tail].concat();
            list.add(Reading::IpfixVariable, limit, &[VARIABLE, 2], &body);
        }
        let long_prefix = [0xFF, 0x00, 0x01, 0x61, 0x00, 0x50];
        list.add(Reading::IpfixVariable, limit, &[VARIABLE, 2], &long_prefix);
    }
    for reading in Reading::ALL {
        list.add(reading, 1, &[4, 4], &content(16));
    }
}

#[cfg(test)]
mod tests {
    use super::*;
    use crate::framing::answer::{Answer, original_answer};
    use crate::framing::case::Case;
    use crate::numbers::{DONE, INVALID};

    fn answer(reading: Reading, max_records: u64, widths: &[u16], body: &[u8]) -> Answer {
        original_answer(&Case {
            reading,
            max_records,
            widths: widths.to_vec(),
            body: body.to_vec(),
        })
    }

    fn variable(tail: &[u8]) -> Answer {
        let body = [&HEAD, tail].concat();
        answer(Reading::IpfixVariable, u64::MAX, &[VARIABLE, 2], &body)
    }

    fn costs(cost: [u64; 3]) -> Answer {
        Answer { number: DONE, cost }
    }

    fn invalid() -> Answer {
        Answer::refused(INVALID)
    }

    #[test]
    fn fixed_widths() {
        let v9 = |length| answer(Reading::V9Fixed, u64::MAX, &[4, 4], &content(length));
        assert_eq!(v9(19), costs([4, 16, 3]));
        assert_eq!(v9(20), invalid());
        let ipfix = answer(Reading::IpfixFixed, u64::MAX, &[4, 4], &content(20));
        assert_eq!(ipfix, costs([4, 16, 4]));
    }

    #[test]
    fn record_limit() {
        for reading in Reading::ALL {
            assert_eq!(answer(reading, 1, &[4, 4], &content(16)), invalid());
        }
    }

    #[test]
    fn variable_widths() {
        assert_eq!(variable(&[]), costs([2, 5, 0]));
        assert_eq!(variable(&[0; 2]), costs([2, 5, 2]));
        assert_eq!(variable(&[0; 3]), costs([4, 7, 0]));
        assert_eq!(variable(&[0xFF; 3]), invalid());
        let long_prefix = [0xFF, 0x00, 0x01, 0x61, 0x00, 0x50];
        let taken = answer(Reading::IpfixVariable, 1, &[VARIABLE, 2], &long_prefix);
        assert_eq!(taken, costs([2, 3, 0]));
    }
}
