//! The crate's budget beside the original, call by call. The sequences are the oracle's.

use netflow_pending::{
    ConfigError, DEFAULT_MAX_RECORDS_PER_FLOWSET, DecodedOutputBudget, DecodedOutputLimit,
    DecodedOutputLimits, OutputBudgetExceeded, PendingOutputError, PendingOutputPreflight,
};
use oracle::budget::call::{Answer, Call, Preflight, Report};
use oracle::budget::generator::{Departures, Generator};
use oracle::budget::rows::Rows;
use oracle::numbers::{
    DONE, FITS_LATER, INVALID, NEVER_FITS, NO_PAYLOAD, NO_RECORDS, NO_VALUES, PAYLOAD_EXCEEDED,
    ROLLBACK_ABOVE_USE, VALUES_EXCEEDED,
};
use oracle::random::Random;
use std::collections::BTreeMap;
use std::io;

const CALLS: u64 = 300_000;
const LONGEST_SEQUENCE: u64 = 60;

/// A decoder leaves a part of its body. No remainder is longer.
static BODY: [u8; 65_532] = [0; 65_532];

fn answer(budget: &mut DecodedOutputBudget, call: &Call) -> Answer {
    match *call {
        Call::New { values, payload } => {
            *budget = DecodedOutputBudget::new(values as usize, payload as usize);
            Answer::plain(DONE)
        }
        Call::Reset => {
            budget.reset();
            Answer::plain(DONE)
        }
        Call::SetLimits { values, payload } => {
            budget.set_limits(values as usize, payload as usize);
            Answer::plain(DONE)
        }
        Call::Reserve { values, payload } => {
            match budget.reserve(values as usize, payload as usize) {
                Ok(()) => Answer::plain(DONE),
                Err(exceeded) => refused(exceeded),
            }
        }
        Call::Rollback { values, payload } => {
            match budget.try_rollback((values as usize, payload as usize)) {
                Ok(()) => Answer::plain(DONE),
                Err(used) => {
                    assert_eq!(used, budget.used());
                    Answer::plain(ROLLBACK_ABOVE_USE)
                }
            }
        }
        Call::TakeExceeded => {
            Answer { number: DONE, values: budget.take_exceeded().map_or([0; 3], words) }
        }
        Call::ValidateFull(preflight) => {
            let preflight = preflight.map(of_words);
            let answer = budget.validate_pending_full_budget(preflight);
            assert!(answer.is_err() || answer.ok() == preflight);
            Answer::plain(answer.map_or_else(number, |_| DONE))
        }
        Call::ValidateRemaining(Some(preflight)) => {
            let answer = budget.validate_pending_remaining(of_words(preflight));
            Answer::plain(answer.map_or_else(number, |()| DONE))
        }
        // The type does not let it be asked.
        Call::ValidateRemaining(None) => Answer::plain(INVALID),
        Call::Materialize(preflight, report) => materialize(budget, preflight, report),
        Call::Remaining => {
            let (values, payload) = budget.remaining();
            Answer { number: DONE, values: [values as u64, payload as u64, 0] }
        }
        Call::IsExceeded => {
            Answer { number: DONE, values: [u64::from(budget.is_exceeded()), 0, 0] }
        }
        Call::Limits { records, values, payload } => {
            limits(records as usize, values as usize, payload as usize)
        }
    }
}

/// The decoder reserves what it is to report; where it may not, it fails.
fn materialize(budget: &mut DecodedOutputBudget, preflight: Preflight, report: Report) -> Answer {
    let reported = report.words(preflight.unwrap_or_default());
    let mut called = false;
    let limits = budget.clone();
    let result = budget.materialize_pending(preflight.map(of_words), |scratch| {
        called = true;
        let mut whole = limits;
        whole.reset();
        assert_eq!(
            (scratch.used(), scratch.remaining(), scratch.is_exceeded()),
            ((0, 0), whole.remaining(), false)
        );
        let [values, payload, remainder] = reported.ok_or(())?;
        scratch.reserve(values as usize, payload as usize).map_err(|_| ())?;
        Ok::<_, ()>((&BODY[..remainder as usize], values))
    });
    // The decoder is asked where the preflight fits, and not else.
    let fits = matches!(result, Ok(_) | Err(PendingOutputError::Invalid)) && preflight.is_some();
    assert_eq!(called, fits);
    match result {
        Ok((value, remainder)) => {
            assert_eq!(Some(value), reported.map(|words| words[0]));
            Answer { number: DONE, values: [remainder as u64, 0, 0] }
        }
        Err(error) => Answer::plain(number(error)),
    }
}

fn limits(records: usize, values: usize, payload: usize) -> Answer {
    Answer::plain(match DecodedOutputLimits::new(records, values, payload) {
        Ok(limits) => {
            assert_eq!(limits.max_records(), records);
            assert_eq!(limits.budget().remaining(), (values, payload));
            DONE
        }
        Err(ConfigError::InvalidRecordsPerFlowset(0)) => NO_RECORDS,
        Err(ConfigError::InvalidDecodedFieldValueLimit(0)) => NO_VALUES,
        Err(ConfigError::InvalidDecodedFieldPayloadByteLimit(0)) => NO_PAYLOAD,
        Err(other) => panic!("no limit of the output: {other:?}"),
    })
}

fn of_words([values, payload, remainder]: [u64; 3]) -> PendingOutputPreflight {
    PendingOutputPreflight {
        field_values: values as usize,
        field_payload_bytes: payload as usize,
        remainder_len: remainder as usize,
    }
}

fn words(exceeded: OutputBudgetExceeded) -> [u64; 3] {
    let limit = match exceeded.limit {
        DecodedOutputLimit::FieldValues => 1,
        DecodedOutputLimit::FieldPayloadBytes => 2,
    };
    [limit, exceeded.configured as u64, exceeded.attempted as u64]
}

fn refused(exceeded: OutputBudgetExceeded) -> Answer {
    let number = match exceeded.limit {
        DecodedOutputLimit::FieldValues => VALUES_EXCEEDED,
        DecodedOutputLimit::FieldPayloadBytes => PAYLOAD_EXCEEDED,
    };
    Answer { number, values: words(exceeded) }
}

fn number(error: PendingOutputError) -> u32 {
    match error {
        PendingOutputError::Invalid => INVALID,
        PendingOutputError::NeverFits => NEVER_FITS,
        PendingOutputError::TemporarilyDoesNotFit => FITS_LATER,
    }
}

/// Limits, use and recorded excess.
fn state(budget: &DecodedOutputBudget) -> [u64; 7] {
    let mut taken = budget.clone();
    let exceeded = taken.take_exceeded();
    assert_eq!(budget.is_exceeded(), exceeded.is_some());
    assert!(!taken.is_exceeded());
    let mut unused = budget.clone();
    unused.reset();
    let (max_values, max_payload) = unused.remaining();
    let (used_values, used_payload) = budget.used();
    assert_eq!(budget.checkpoint(), budget.used());
    let counts = [max_values, max_payload, used_values, used_payload].map(|count| count as u64);
    let [a, b, c, d] = counts;
    let [e, f, g] = exceeded.map_or([0; 3], words);
    [a, b, c, d, e, f, g]
}

#[test]
fn sequences() {
    let mut generator = Generator { random: Random::new(5), departures: Departures::Drawn };
    let mut original = Rows::new(io::sink());
    let mut budget = DecodedOutputBudget::new(0, 0);
    let mut numbers = BTreeMap::new();
    let mut calls = 0;
    while calls < CALLS {
        let mut call = generator.opening();
        for _ in 0..=generator.random.below(LONGEST_SEQUENCE) {
            let expected = original.make(&call);
            assert_eq!(answer(&mut budget, &call), expected, "{call:?}");
            assert_eq!(state(&budget), original.state(), "{call:?}");
            *numbers.entry(expected.number).or_insert(0_u64) += 1;
            calls += 1;
            call = generator.next(&original.state());
        }
    }
    assert_eq!(calls, 300_002);
    let seen: Vec<u32> = numbers.into_keys().collect();
    assert_eq!(seen, [0, 7, 8, 9, 10, 11, 22, 23, 24, 26]);
}

/// Document 01's case.
#[test]
fn case() {
    let mut budget = DecodedOutputBudget::new(10, 100);
    assert_eq!(budget.reserve(8, 0), Ok(()));
    let exceeded = OutputBudgetExceeded {
        limit: DecodedOutputLimit::FieldValues,
        configured: 10,
        attempted: 11,
    };
    assert_eq!(budget.reserve(3, 500), Err(exceeded));
    assert_eq!((budget.used(), budget.take_exceeded()), ((8, 0), Some(exceeded)));
}

/// By the original's name, a rollback upwards changes nothing.
#[test]
fn rollback_upwards() {
    let mut budget = DecodedOutputBudget::new(10, 100);
    assert_eq!(budget.reserve(8, 7), Ok(()));
    budget.rollback((9, 0));
    assert_eq!(budget.used(), (8, 7));
    budget.rollback((8, 6));
    assert_eq!(budget.used(), (8, 6));
}

#[test]
fn defaults() {
    let limits = DecodedOutputLimits::default();
    assert_eq!(limits.max_records(), DEFAULT_MAX_RECORDS_PER_FLOWSET);
    assert_eq!(limits.budget().remaining(), (65_536, 4_194_304));
}
