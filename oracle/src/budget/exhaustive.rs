//! Every small budget and those at the end of 64 bits, each with every call.

use super::call::{Call, Report};

const END: u64 = u64::MAX;
const LIMITS: [u64; 6] = [0, 1, 2, 3, END - 1, END];
const USES: [u64; 6] = [0, 1, 2, 3, END - 1, END];
const AMOUNTS: [u64; 7] = [0, 1, 2, 3, 4, END - 1, END];

/// Visits sequences that open a budget, bring it to some use and excess, and make one call.
pub fn for_each_sequence<E>(mut visit: impl FnMut(&[Call]) -> Result<(), E>) -> Result<(), E> {
    let calls = calls();
    for (max_values, max_payload) in pairs(&LIMITS) {
        for (values, payload) in pairs(&USES) {
            if values > max_values || payload > max_payload {
                continue;
            }
            let open = Call::New { values: max_values, payload: max_payload };
            let fill = Call::Reserve { values, payload };
            for exceed in [
                Call::Reserve { values: 0, payload: 0 },
                Call::Reserve { values: END, payload: 1 },
                Call::Reserve { values: 0, payload: END },
            ] {
                for &call in &calls {
                    visit(&[open, fill, exceed, call])?;
                }
            }
        }
    }
    Ok(())
}

fn pairs(figures: &[u64]) -> impl Iterator<Item = (u64, u64)> + '_ {
    figures.iter().flat_map(|&first| figures.iter().map(move |&second| (first, second)))
}

fn calls() -> Vec<Call> {
    let mut calls = vec![
        Call::Reset,
        Call::TakeExceeded,
        Call::ValidateFull(None),
        Call::ValidateRemaining(None),
        Call::Remaining,
    ];
    calls.extend(Report::ALL.map(|report| Call::Materialize(None, report)));
    for (values, payload) in pairs(&AMOUNTS) {
        calls.push(Call::SetLimits { values, payload });
        calls.push(Call::Reserve { values, payload });
        calls.push(Call::Rollback { values, payload });
        let preflight = Some([values, payload, 1]);
        calls.push(Call::ValidateFull(preflight));
        calls.push(Call::ValidateRemaining(preflight));
        calls.extend(Report::ALL.map(|report| Call::Materialize(preflight, report)));
    }
    calls.retain(is_possible);
    calls
}

/// A report of a figure above 2^64 - 1 or below 0 cannot be given.
fn is_possible(call: &Call) -> bool {
    match *call {
        Call::Materialize(_, Report::Failure) => true,
        Call::Materialize(preflight, report) => {
            report.words(preflight.unwrap_or_default()).is_some()
        }
        _ => true,
    }
}
