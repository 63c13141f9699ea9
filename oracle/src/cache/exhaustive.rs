//! Every short list of calls over a small alphabet, on several small caches.

use super::call::Call;
use super::document::limits;
use super::limits::{Areas, Limits};

/// Room for each of the limits here but one.
const AREAS: Areas = Areas { bytes: 8, words: 128 };

fn caches() -> [Limits; 6] {
    [
        limits(1, 1, 2, 2, None),
        limits(1, 2, 2, 3, Some(2)),
        limits(2, 1, 2, 3, None),
        limits(2, 2, 2, 4, Some(2)),
        limits(2, 2, 2, 3, Some(0)),
        limits(3, 1, 2, 5, Some(1)),
    ]
}

fn alphabet() -> Vec<Call> {
    let offer = |id, length, clock| Call::Offer { id, length, clock };
    let drain = |id, clock| Call::Drain { id, clock };
    let put_back = |id, n| Call::PutBack { id, n };
    vec![
        offer(300, 1, 0),
        offer(300, 2, 1),
        offer(301, 1, 1),
        offer(301, 2, 2),
        offer(302, 1, 2),
        offer(300, 0, 2),
        offer(300, 3, 1),
        drain(300, 1),
        drain(300, 2),
        drain(301, 3),
        put_back(300, 0),
        put_back(300, 1),
        put_back(300, 2),
        put_back(301, 1),
        Call::Resize(limits(1, 1, 1, 1, Some(1))),
        Call::Resize(limits(2, 1, 2, 2, None)),
        Call::Resize(limits(1, 1, 2, 9, None)),
        Call::Clear,
        Call::WouldAccept { id: 300, length: 1, clock: 2 },
        Call::ReadHandedOut { number: 0 },
    ]
}

/// What stands before the lists, and how long these are.
fn beginnings() -> [(Vec<Call>, u32); 4] {
    let offer = |id, length, clock| Call::Offer { id, length, clock };
    let drain = Call::Drain { id: 300, clock: 1 };
    [
        (vec![], 4),
        (vec![offer(300, 1, 0), offer(301, 1, 1), offer(300, 1, 1)], 3),
        (vec![offer(301, 2, 0), offer(300, 0, 1), offer(302, 1, 1), drain], 3),
        (vec![offer(301, 1, 0), offer(300, 1, 0), offer(300, 1, 1), drain], 3),
    ]
}

/// Visits lists that open a cache and make so many calls. Shorter ones are their beginnings.
pub fn for_each_list<E>(mut visit: impl FnMut(&[Call]) -> Result<(), E>) -> Result<(), E> {
    let alphabet = alphabet();
    for (beginning, length) in beginnings() {
        for limits in caches() {
            let mut calls = vec![Call::Open { limits, areas: AREAS }];
            calls.extend(&beginning);
            let fixed = calls.len();
            for list in 0..alphabet.len().pow(length) {
                calls.truncate(fixed);
                let mut rest = list;
                for _ in 0..length {
                    calls.push(alphabet[rest % alphabet.len()]);
                    rest /= alphabet.len();
                }
                visit(&calls)?;
            }
        }
    }
    Ok(())
}
