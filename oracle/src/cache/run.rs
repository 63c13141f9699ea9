//! The original and document 01's account, call by call on both.

use super::account::{Account, Body};
use super::body::{body, is_body};
use super::call::{Answer, Call};
use super::original::{Cache, HeldBody, State};
use crate::numbers::DONE;

/// A newly opened cache and what the calls since then made of it.
pub struct Run {
    pub cache: Cache,
    pub account: Account,
    calls: Vec<Call>,
}

impl Run {
    /// None where the opening is refused.
    pub fn open(call: &Call) -> Option<Self> {
        let Call::Open { limits, areas } = call else {
            panic!("a list of calls begins with an opening");
        };
        match (Cache::open(limits, *areas), Account::open(limits, *areas)) {
            (Ok(cache), Ok(account)) => Some(Self { cache, account, calls: vec![*call] }),
            (original, account) => {
                assert_eq!(original.err(), account.err(), "the answers to {call:?} differ");
                None
            }
        }
    }

    /// Makes the call on both, which must agree in the answer and in all that is seen. An opening
    /// is one that is refused.
    pub fn call(&mut self, call: &Call) -> Answer {
        self.calls.push(*call);
        let answer = self.original_answer(call);
        let expected = self.account.call(call);
        let state = self.cache.state();
        if answer != expected || !self.is_accounted(&state) {
            let Self { account, calls, .. } = self;
            panic!(
                "the original and document 01 differ after {calls:#?}: the original answers \
                {answer:?} and holds {state:?}, document 01 answers {expected:?} and {account:?}"
            );
        }
        answer
    }

    fn original_answer(&mut self, call: &Call) -> Answer {
        let cache = &mut self.cache;
        match *call {
            Call::Open { limits, areas } => {
                let refused = Cache::open(&limits, areas).err();
                Answer::number(refused.expect("only a list's first opening is accepted"))
            }
            Call::Offer { id, length, clock } => {
                Answer::number(cache.offer(id, body(cache.offers(), length), clock))
            }
            Call::Drain { id, clock } => Answer::value(cache.drain(id, clock)),
            Call::PutBack { id, n } => Answer::number(cache.put_back(id, n)),
            Call::Resize(limits) => match cache.resize(&limits) {
                Ok(dropped) => Answer::value(dropped),
                Err(number) => Answer::number(number),
            },
            Call::Clear => {
                cache.clear();
                Answer::number(DONE)
            }
            Call::WouldAccept { id, length, clock } => {
                Answer::value(u64::from(cache.would_accept(id, length, clock)))
            }
            Call::ReadHandedOut { number } => match cache.handed_out(number) {
                Ok(bytes) => Answer::value(bytes.len() as u64),
                Err(number) => Answer::number(number),
            },
        }
    }

    fn is_accounted(&self, state: &State<'_>) -> bool {
        let Account { held, chance, cached, dropped, .. } = &self.account;
        let bytes = self.account.bytes();
        let same = |seen: &[HeldBody<'_>], bodies: &[Body]| {
            seen.len() == bodies.len()
                && seen.iter().zip(bodies).all(|(seen, body)| {
                    let figures = (seen.offer, seen.bytes.len() as u64, seen.clock);
                    figures == (body.offer, body.length, body.clock)
                        && is_body(seen.offer, seen.bytes)
                })
        };
        (state.bytes, state.cached, state.dropped) == (bytes, *cached, *dropped)
            && state.held.len() == held.len()
            && state.held.iter().zip(held).all(|(seen, template)| {
                seen.id == template.id && same(&seen.bodies, &template.bodies)
            })
            && same(&state.handed, &chance.bodies)
    }
}
