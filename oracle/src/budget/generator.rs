//! Calls by chance, with figures drawn around those where the budget's answer changes.

use super::call::{Call, Preflight, Report};
use super::original::LONGEST_REMAINDER;
use crate::random::Random;

/// Whether calls may be drawn that document 01 answers unlike the original.
#[derive(Debug, Clone, Copy, PartialEq, Eq)]
pub enum Departures {
    Drawn,
    LeftOut,
}

pub struct Generator {
    pub random: Random,
    pub departures: Departures,
}

/// The budget's words, of which the first four steer what is drawn.
type State = [u64; 7];

impl Generator {
    /// A sequence begins with this.
    pub fn opening(&mut self) -> Call {
        let (values, payload) = self.limit_pair();
        Call::New { values, payload }
    }

    pub fn next(&mut self, state: &State) -> Call {
        match self.random.below(40) {
            0 => Call::Reset,
            1 => {
                let (values, payload) = self.limit_pair();
                Call::SetLimits { values, payload }
            }
            2..=14 => {
                Call::Reserve { values: self.amount(state, 0), payload: self.amount(state, 1) }
            }
            15..=18 => self.rollback(state),
            19..=20 => Call::TakeExceeded,
            21..=23 => Call::ValidateFull(self.preflight(state)),
            24..=27 => self.validate_remaining(state),
            28..=36 => self.materialize(state),
            37 => Call::Remaining,
            38 => Call::IsExceeded,
            _ => self.limits(),
        }
    }

    /// Small limits mostly, so that a few calls reach them.
    fn limit_pair(&mut self) -> (u64, u64) {
        (self.limit(), self.limit())
    }

    fn limit(&mut self) -> u64 {
        match self.random.below(10) {
            0 => self.random.pick(&[0, 1, 2]),
            1..=6 => self.random.below(25),
            7 => self.random.pick(&[100, 1024, 65_536, 4_194_304]),
            8 => u64::MAX - self.random.below(3),
            _ => u64::MAX,
        }
    }

    /// A count of field values (0) or payload bytes (1) to ask for: mostly one that fits.
    fn amount(&mut self, state: &State, count: usize) -> u64 {
        let (limit, used) = (state[count], state[count + 2]);
        let left = limit.saturating_sub(used);
        match self.random.below(20) {
            0..=3 => 0,
            4..=9 => self.random.below(left.min(9) + 1),
            10..=11 => left,
            12..=13 => left.saturating_add(1),
            14 => left.saturating_sub(1),
            15 => limit.saturating_add(self.random.below(2)),
            // Around where the sum of use and amount leaves 64 bits.
            16 => (u64::MAX - used).saturating_add(self.random.below(2)),
            17 => u64::MAX - self.random.below(2),
            18 => self.random.below(limit.saturating_add(1)),
            _ => self.random.below(30),
        }
    }

    fn rollback(&mut self, state: &State) -> Call {
        let [_, _, used_values, used_payload, ..] = *state;
        let mut values = self.up_to(used_values);
        let mut payload = self.up_to(used_payload);
        if self.departures == Departures::Drawn && self.random.percent(30) {
            let above = self.random.pick(&[1, 2, u64::MAX]);
            match self.random.below(3) {
                0 => values = used_values.saturating_add(above),
                1 => payload = used_payload.saturating_add(above),
                _ => (values, payload) = (used_values.saturating_add(above), above),
            }
        }
        Call::Rollback { values, payload }
    }

    /// The bound, 0, or something between.
    fn up_to(&mut self, bound: u64) -> u64 {
        match self.random.below(4) {
            0 => 0,
            1 => bound,
            2 => bound.saturating_sub(1),
            _ => self.random.below(bound.saturating_add(1)),
        }
    }

    fn preflight(&mut self, state: &State) -> Preflight {
        if self.random.percent(10) {
            return None;
        }
        let remainder = match self.random.below(10) {
            0 => LONGEST_REMAINDER,
            1..=4 => 0,
            _ => self.random.below(20),
        };
        Some([self.amount(state, 0), self.amount(state, 1), remainder])
    }

    fn validate_remaining(&mut self, state: &State) -> Call {
        let mut preflight = self.preflight(state);
        if self.departures == Departures::LeftOut
            && let Some([values, payload, _]) = &mut preflight
        {
            *values = state[0].min(*values);
            *payload = state[1].min(*payload);
        }
        Call::ValidateRemaining(preflight)
    }

    fn materialize(&mut self, state: &State) -> Call {
        let preflight = self.preflight(state);
        let mut report = self.random.pick(&Report::ALL);
        let has_words = report.words(preflight.unwrap_or_default()).is_some();
        // Half of them as the preflight said, or the budget would seldom fill.
        if self.random.percent(50) || (report != Report::Failure && !has_words) {
            report = Report::Same;
        }
        Call::Materialize(preflight, report)
    }

    fn limits(&mut self) -> Call {
        let mut figure = || self.random.pick(&[0, 1, 1024, u64::MAX]);
        Call::Limits { records: figure(), values: figure(), payload: figure() }
    }
}
