//! The measuring functions beside the original's, input for input.

use netflow_pending::{
    PendingOutputPreflight, RecordBodyKind, measure_fixed_output, measure_fixed_widths,
    measure_variable_output,
};
use oracle::framing::answer::{Answer, original_answer};
use oracle::framing::case::{Case, Reading};
use oracle::framing::generator::{Share, Sizes, random_case};
use oracle::framing::record::recorded_cases;
use oracle::numbers::{DONE, INVALID};
use oracle::random::Random;

const GENERATED: u64 = 200_000;
const MAX_BODY: usize = 65_531;
const MAX_WIDTHS: usize = 65_535;

const SIZES: Sizes = Sizes {
    widths: &[
        Share { weight: 60_000, least: 1, most: 4 },
        Share { weight: 30_000, least: 5, most: 20 },
        Share { weight: 9_000, least: 21, most: 100 },
        Share { weight: 1_000, least: 0, most: 0 },
    ],
    bodies: &[
        Share { weight: 8_900, least: 0, most: 64 },
        Share { weight: 1_000, least: 65, most: 1_500 },
        Share { weight: 20, least: MAX_BODY - 1, most: MAX_BODY },
    ],
    longest_body: MAX_BODY,
    zero_limit: true,
};

fn measured(case: &Case) -> Option<PendingOutputPreflight> {
    let (body, widths) = (case.body.as_slice(), case.widths.as_slice());
    let max_records = case.max_records as usize;
    let width = |width: &u16| *width;
    match case.reading {
        Reading::V9Fixed => {
            measure_fixed_output(body, widths, max_records, width, RecordBodyKind::NetFlowV9)
        }
        Reading::IpfixFixed => {
            measure_fixed_output(body, widths, max_records, width, RecordBodyKind::Ipfix)
        }
        Reading::IpfixVariable => {
            measure_variable_output(body, widths, max_records, width, RecordBodyKind::Ipfix)
        }
    }
}

fn compare(case: &Case) -> u32 {
    let answer = match measured(case) {
        Some(cost) => Answer {
            number: DONE,
            cost: [cost.field_values, cost.field_payload_bytes, cost.remainder_len]
                .map(|figure| figure as u64),
        },
        None => Answer::refused(INVALID),
    };
    assert_eq!(answer, original_answer(case), "{}", case.row());
    answer.number
}

#[test]
fn recorded() {
    let recorded = recorded_cases();
    assert_eq!(recorded.cases().len(), 6_000);
    for case in recorded.cases() {
        compare(case);
    }
}

#[test]
fn generated() {
    let mut random = Random::new(7);
    let valid = (0..GENERATED).filter(|_| compare(&random_case(&mut random, &SIZES)) == DONE);
    let valid = valid.count() as u64;
    assert!(GENERATED / 10 < valid && valid < GENERATED * 9 / 10, "{valid} valid");
}

/// Document 01's cases.
#[test]
fn cases() {
    let abc = [0x03, 0x61, 0x62, 0x63, 0x00, 0x50];
    let cost = |reading, max_records, widths: &[u16], body: &[u8]| {
        let case = Case { reading, max_records, widths: widths.to_vec(), body: body.to_vec() };
        compare(&case);
        measured(&case)
            .map(|cost| (cost.field_values, cost.field_payload_bytes, cost.remainder_len))
    };
    let many = 65_536;
    assert_eq!(cost(Reading::V9Fixed, many, &[4, 4], &[0; 19]), Some((4, 16, 3)));
    assert_eq!(cost(Reading::V9Fixed, many, &[4, 4], &[0; 20]), None);
    assert_eq!(cost(Reading::IpfixFixed, many, &[4, 4], &[0; 20]), Some((4, 16, 4)));
    assert_eq!(cost(Reading::V9Fixed, 1, &[4, 4], &[0; 16]), None);
    assert_eq!(cost(Reading::IpfixFixed, 1, &[4, 4], &[0; 16]), None);
    let variable = |after: &[u8]| {
        cost(Reading::IpfixVariable, many, &[65_535, 2], &[&abc[..], after].concat())
    };
    assert_eq!(variable(&[]), Some((2, 5, 0)));
    assert_eq!(variable(&[0; 2]), Some((2, 5, 2)));
    assert_eq!(variable(&[0; 3]), Some((4, 7, 0)));
    assert_eq!(variable(&[0xFF; 3]), None);
    let long_prefix = [0xFF, 0x00, 0x01, 0x61, 0x00, 0x50];
    assert_eq!(cost(Reading::IpfixVariable, many, &[65_535, 2], &long_prefix), Some((2, 3, 0)));
}

/// What the original measures and this crate does not (number 12).
#[test]
fn too_large() {
    let ipfix = |body: &[u8], widths: &[u16]| {
        measure_fixed_output(body, widths, usize::MAX, |width| *width, RecordBodyKind::Ipfix)
            .is_some()
    };
    assert!(ipfix(&vec![0; MAX_BODY], &[1]));
    assert!(!ipfix(&vec![0; MAX_BODY + 1], &[1]));
    let widths = |count: usize| [&[1][..], &vec![0; count - 1]].concat();
    assert!(ipfix(&[0], &widths(MAX_WIDTHS)));
    assert!(!ipfix(&[0], &widths(MAX_WIDTHS + 1)));
    assert!(!ipfix(&[0], &widths(2 * MAX_WIDTHS)));
}

/// Calls that the original's types allow and the archive does not have.
#[test]
fn beyond_the_readings() {
    let v9 = RecordBodyKind::NetFlowV9;
    let counted = |count| measure_fixed_widths(&[0; 17], count, [4, 4], usize::MAX, v9);
    assert_eq!(counted(2).map(|cost| cost.field_values), Some(4));
    assert_eq!(counted(5).map(|cost| cost.field_values), Some(10));
    assert_eq!(counted(0), None);
    assert_eq!(counted(usize::MAX), None);
    assert_eq!(measure_fixed_widths(&[0; 17], 5, [], usize::MAX, v9), None);

    let variable = |body: &[u8], kind| {
        measure_variable_output(body, &[65_535, 4], usize::MAX, |width: &u16| *width, kind)
            .map(|cost| cost.remainder_len)
    };
    for (padding, v9_answer) in [(3, Some(3)), (4, None)] {
        let body = [&[0, 1, 2, 3, 4][..], &vec![0xFF; padding]].concat();
        assert_eq!(variable(&body, RecordBodyKind::Ipfix), Some(padding));
        assert_eq!(variable(&body, v9), v9_answer);
    }
}
