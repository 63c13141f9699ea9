//! The lists of calls that are streamed and counted, in parts.

use super::account::Account;
use super::call::Call;
use super::counts::Counts;
use super::exhaustive;
use super::generator::Generator;
use super::generator::moves::{LARGE_MOVES, MOVES, SHORT_MOVES};
use super::generator::profile::{DEFAULTS_BY_BYTES, DEFAULTS_BY_COUNT, LABELS, MIDDLE};
use super::generator::profile::{Profile, SMALL};
use super::limits::Limits;
use super::rows::Rows;
use std::io::{self, Write};

/// Calls of a list after its opening, at most.
const SMALL_LIST: u64 = 60;

const MIDDLE_LISTS: u64 = 20;
const MIDDLE_LIST: u64 = 5_000;

const LABELS_LIST: u64 = 2_000;

const MOVES_LIST: u64 = 800;
const SHORT_MOVES_LIST: u64 = 150;

/// Takes one call after the other. A list begins with an opening that is accepted.
pub trait Taker {
    type Error;

    fn add(&mut self, call: &Call) -> Result<(), Self::Error>;

    /// The account of the cache that the next call goes on with.
    fn account(&self) -> &Account;

    fn add_all(&mut self, calls: &[Call]) -> Result<(), Self::Error> {
        calls.iter().try_for_each(|call| self.add(call))
    }
}

#[derive(Clone, Copy)]
pub enum Part {
    /// All lists of up to 4 calls of a small alphabet.
    Exhaustive,
    /// Lists by chance, on caches of a few bodies.
    Small { seed: u64, lists: u64 },
    /// A few long lists by chance, on caches of some hundred bodies.
    Middle { seed: u64 },
    /// Lists by chance in which templates come and go, now fewer than 32 and now more.
    Labels { seed: u64, lists: u64 },
    /// Two long lists by chance at the default limits: one with many bodies, one with large ones.
    Defaults { seed: u64, calls: u64 },
    /// Lists by chance in which bodies move often, on areas of 100 bytes to 4 MiB; and three
    /// long lists on areas of up to 64 MiB.
    Moves { seed: u64, lists: u64 },
    /// The same on short areas, for a memory checker.
    ShortMoves { seed: u64, lists: u64 },
}

impl Part {
    /// Writes the rows of the parts, and answers the counts of each.
    pub fn write_all(parts: &[Self], out: impl Write) -> io::Result<Vec<(&'static str, Counts)>> {
        let mut rows = Rows::new(out);
        let mut counts = Vec::new();
        for part in parts {
            part.make(&mut rows)?;
            counts.push((part.name(), std::mem::take(&mut rows.counts)));
        }
        rows.out.flush()?;
        Ok(counts)
    }

    pub fn name(self) -> &'static str {
        match self {
            Self::Exhaustive => "exhaustive",
            Self::Small { .. } => "small",
            Self::Middle { .. } => "middle",
            Self::Labels { .. } => "labels",
            Self::Defaults { .. } => "defaults",
            Self::Moves { .. } | Self::ShortMoves { .. } => "moves",
        }
    }

    /// Makes the calls of the part.
    pub fn make<T: Taker>(self, taker: &mut T) -> Result<(), T::Error> {
        match self {
            Self::Exhaustive => exhaustive::for_each_list(|calls| taker.add_all(calls)),
            Self::Small { seed, lists } => {
                let mut generator = Generator::new(seed, &SMALL);
                (0..lists).try_for_each(|_| make_list(taker, &mut generator, SMALL_LIST))
            }
            Self::Middle { seed } => {
                let mut generator = Generator::new(seed, &MIDDLE);
                (0..MIDDLE_LISTS).try_for_each(|_| make_calls(taker, &mut generator, MIDDLE_LIST))
            }
            Self::Labels { seed, lists } => {
                let mut generator = Generator::new(seed, &LABELS);
                (0..lists).try_for_each(|_| make_calls(taker, &mut generator, LABELS_LIST))
            }
            Self::Defaults { seed, calls } => {
                for profile in [&DEFAULTS_BY_COUNT, &DEFAULTS_BY_BYTES] as [&'static Profile; 2] {
                    make_calls(taker, &mut Generator::new(seed, profile), calls)?;
                    taker.add_all(&shrinking())?;
                }
                Ok(())
            }
            Self::Moves { seed, lists } => {
                let mut generator = Generator::new(seed, &MOVES);
                (0..lists).try_for_each(|_| make_calls(taker, &mut generator, MOVES_LIST))?;
                LARGE_MOVES.iter().try_for_each(|(profile, calls)| {
                    make_calls(taker, &mut Generator::new(seed, profile), *calls)
                })
            }
            Self::ShortMoves { seed, lists } => {
                let mut generator = Generator::new(seed, &SHORT_MOVES);
                (0..lists).try_for_each(|_| make_calls(taker, &mut generator, SHORT_MOVES_LIST))
            }
        }
    }
}

/// What a list at the default limits ends with: each limit in turn is lowered far.
fn shrinking() -> Vec<Call> {
    let by_bytes = Limits { total: 8_000_000, ..Limits::DEFAULTS };
    let by_templates = Limits { templates: 200, ..by_bytes };
    let by_bodies = Limits { bodies: 30, ..by_templates };
    let by_size = Limits { entry: 1_000, ..by_bodies };
    let by_age = Limits { ttl: Some(0), ..by_size };
    let resizes = [by_bytes, by_templates, by_bodies, by_size, by_age].map(Call::Resize);
    [&resizes[..], &[Call::Clear]].concat()
}

/// An opening and some calls, at least one and at most so many.
pub fn make_list<T: Taker>(
    taker: &mut T,
    generator: &mut Generator,
    longest: u64,
) -> Result<(), T::Error> {
    let calls = 1 + generator.random.below(longest);
    make_calls(taker, generator, calls)
}

fn make_calls<T: Taker>(
    taker: &mut T,
    generator: &mut Generator,
    calls: u64,
) -> Result<(), T::Error> {
    taker.add(&generator.opening())?;
    for _ in 0..calls {
        let call = generator.next(taker.account());
        taker.add(&call)?;
    }
    Ok(())
}
