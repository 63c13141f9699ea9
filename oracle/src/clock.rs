//! The clock of document 01: a reading given with a call. It stands in for `std::time::Instant`
//! in the original cache.

use std::cell::Cell;
use std::time::Duration;

/// A reading in nanoseconds, and the number of the offer in which it was taken. The original
/// keeps an instant with each body and nothing else that would tell bodies apart.
#[derive(Debug, Clone, Copy, PartialEq, Eq)]
pub struct Instant {
    pub reading: u64,
    pub offer: u64,
}

thread_local! {
    static SET: Cell<Option<Instant>> = const { Cell::new(None) };
}

/// Makes a call with the clock set: however often it is read in there, it stands still. Outside
/// of this nothing may read it.
pub fn with_clock<T>(set: Instant, call: impl FnOnce() -> T) -> T {
    SET.set(Some(set));
    let answer = call();
    SET.set(None);
    answer
}

impl Instant {
    pub fn now() -> Self {
        SET.get().expect("only a call that is given a clock reading reads the clock")
    }

    /// The age: 0 where the clock is earlier, as with the standard library's.
    pub fn elapsed(&self) -> Duration {
        Duration::from_nanos(Self::now().reading.saturating_sub(self.reading))
    }
}
