//! Rows of calls on one cache after another, with the answers and what is then held.

use super::account::Account;
use super::call::{Answer, Call};
use super::counts::Counts;
use super::original::{HeldBody, State};
use super::parts::Taker;
use super::run::Run;
use crate::numbers::DONE;
use std::io::{self, Write};

/// A row lists the bodies where they are few, so that a replay needs set areas only.
const LISTED_BODIES: u64 = 8;
/// And where the offers are few, so that a replay can keep the length and clock of each.
const LISTED_OFFERS: u64 = 256;

pub struct Rows<W> {
    pub out: W,
    pub counts: Counts,
    run: Option<Run>,
}

const OPENED: &str = "the first opening is accepted";

impl<W: Write> Rows<W> {
    pub fn new(out: W) -> Self {
        Self { out, counts: Counts::default(), run: None }
    }

    /// An opening that is accepted begins a new run. One that is refused changes nothing.
    fn call(&mut self, call: &Call) -> Answer {
        if let Call::Open { .. } = call
            && let Some(run) = Run::open(call)
        {
            self.run = Some(run);
            return Answer::number(DONE);
        }
        self.run.as_mut().expect(OPENED).call(call)
    }

    fn write(&mut self, words: &[u64]) -> io::Result<()> {
        write!(self.out, "{}", words[0])?;
        for word in &words[1..] {
            write!(self.out, " {word}")?;
        }
        writeln!(self.out)
    }
}

impl<W: Write> Taker for Rows<W> {
    type Error = io::Error;

    /// Makes the call and writes its row. The answer is the original's, but where document 01
    /// departs from it.
    fn add(&mut self, call: &Call) -> io::Result<()> {
        let answer = self.call(call);
        let run = self.run.as_ref().expect(OPENED);
        self.counts.add(call, answer.number, run.account.branches());
        let mut words = call.row_words();
        words.extend([u64::from(answer.number), answer.value]);
        words.extend(state_words(&run.cache.state(), run.cache.offers()));
        self.write(&words)
    }

    fn account(&self) -> &Account {
        &self.run.as_ref().expect(OPENED).account
    }
}

/// Six figures, then 1 and the bodies by the numbers of their offers, or 0.
fn state_words(state: &State<'_>, offers: u64) -> Vec<u64> {
    let (templates, handed) = (state.held.len() as u64, state.handed.len() as u64);
    let bodies = state.bodies();
    let mut words = vec![templates, bodies, state.bytes, state.cached, state.dropped, handed];
    let is_listed = bodies + handed <= LISTED_BODIES && offers <= LISTED_OFFERS;
    words.push(u64::from(is_listed));
    if is_listed {
        let offers = |bodies: &[HeldBody<'_>]| bodies.iter().map(|body| body.offer).collect();
        for template in &state.held {
            let offers: Vec<u64> = offers(&template.bodies);
            words.extend([u64::from(template.id), offers.len() as u64]);
            words.extend(offers);
        }
        words.extend::<Vec<u64>>(offers(&state.handed));
    }
    words
}

#[cfg(test)]
mod tests {
    use super::*;
    use crate::cache::limits::{Areas, Limits};

    #[test]
    fn a_row_has_call_answer_figures_and_offers() {
        let limits = Limits { templates: 2, bodies: 2, entry: 10, total: 16, ttl: Some(100) };
        let refused = Limits { templates: 0, ..limits };
        let areas = Areas { bytes: 16, words: 96 };
        let mut rows = Rows::new(Vec::new());
        let calls = [
            Call::Open { limits, areas },
            Call::Offer { id: 301, length: 8, clock: 0 },
            Call::Offer { id: 300, length: 3, clock: 1 },
            Call::Offer { id: 300, length: 0, clock: 2 },
            Call::Drain { id: 300, clock: 101 },
            Call::Open { limits: refused, areas },
            Call::Resize(refused),
            Call::WouldAccept { id: 301, length: 1, clock: 3 },
            Call::ReadHandedOut { number: 0 },
            Call::PutBack { id: 300, n: 1 },
            Call::Clear,
        ];
        rows.add_all(&calls).expect("memory can be written");
        let text = String::from_utf8(rows.out).expect("digits and blanks");
        let expected = [
            "0 2 2 10 16 1 100 16 96 0 0 0 0 0 0 0 0 1",
            "1 301 8 0 0 0 1 1 8 1 0 0 1 301 1 0",
            "1 300 3 1 0 0 2 2 11 2 0 0 1 301 1 0 300 1 1",
            "1 300 0 2 0 0 2 3 11 3 0 0 1 301 1 0 300 2 1 2",
            "2 300 101 0 1 1 1 8 3 1 1 1 301 1 0 2",
            "0 0 2 10 16 1 100 16 96 1 0 1 1 8 3 1 1 1 301 1 0 2",
            "4 0 2 10 16 1 100 1 0 1 1 8 3 1 1 1 301 1 0 2",
            "6 301 1 3 0 1 1 1 8 3 1 1 1 301 1 0 2",
            "7 0 0 0 1 1 8 3 1 1 1 301 1 0 2",
            "3 300 1 0 0 2 2 8 3 1 0 1 301 1 0 300 1 2",
            "5 0 0 0 0 0 3 1 0 1",
        ];
        assert_eq!(text.lines().collect::<Vec<_>>(), expected);
    }

    #[test]
    fn many_bodies_are_not_listed() {
        let limits = Limits { templates: 1, bodies: 9, entry: 1, total: 9, ttl: None };
        let areas = limits.areas().expect("legal limits");
        let mut rows = Rows::new(Vec::new());
        rows.add(&Call::Open { limits, areas }).expect("memory can be written");
        let offer = Call::Offer { id: 7, length: 1, clock: 5 };
        rows.add_all(&[offer; 9]).expect("memory can be written");
        let text = String::from_utf8(rows.out).expect("digits and blanks");
        let last: Vec<&str> = text.lines().rev().take(2).collect();
        assert_eq!(
            last,
            ["1 7 1 5 0 0 1 9 9 9 0 0 0", "1 7 1 5 0 0 1 8 8 8 0 0 1 7 8 0 1 2 3 4 5 6 7"]
        );
    }
}
