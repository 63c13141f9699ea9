//! Command `compare-cache`: the proved cache beside the original, call by call.

use super::account::Account;
use super::body::body;
use super::call::{Answer, Call};
use super::counts::{Counts, Table as CountTable};
use super::labels::Labels;
use super::layout::{self, Entry, Table};
use super::lent::{Blocks, Lent, Tail};
use super::limits::{Areas, Limits};
use super::moved::Moved;
use super::original::{HeldBody, State};
use super::parts::{Part, Taker};
use super::run::Run;
use crate::numbers::DONE;
use crate::port;
use std::process::ExitCode;
use std::time::{Duration, Instant};

/// Seed and number of small lists.
pub const DEFAULTS: (u64, u64) = (1, 200_000);

/// Seed and number of calls in each list at the default limits.
pub const DEFAULT_LIMITS_DEFAULTS: (u64, u64) = (1, 20_000);

/// Seed and number of lists in which templates come and go.
pub const LABELS_DEFAULTS: (u64, u64) = (1, 100);

/// Seed and number of lists on areas of up to 4 MiB in which bodies move often.
pub const MOVES_DEFAULTS: (u64, u64) = (1, 600);

pub fn run(seed: u64, lists: u64) -> Result<ExitCode, String> {
    let parts = [
        Part::Exhaustive,
        Part::Small { seed, lists },
        Part::Middle { seed },
        Part::Labels { seed, lists: LABELS_DEFAULTS.1 },
        Part::Defaults { seed, calls: DEFAULT_LIMITS_DEFAULTS.1 },
        Part::Moves { seed, lists: MOVES_DEFAULTS.1 },
    ];
    run_on(Blocks::Guarded, &parts)
}

pub fn run_default_limits(seed: u64, calls: u64) -> Result<ExitCode, String> {
    run_on(Blocks::Guarded, &[Part::Defaults { seed, calls }])
}

pub fn run_labels(seed: u64, lists: u64) -> Result<ExitCode, String> {
    run_on(Blocks::Guarded, &[Part::Labels { seed, lists }])
}

pub fn run_moves(seed: u64, lists: u64) -> Result<ExitCode, String> {
    run_on(Blocks::Guarded, &[Part::Moves { seed, lists }])
}

pub fn run_on(blocks: Blocks, parts: &[Part]) -> Result<ExitCode, String> {
    let mut counts = Vec::new();
    let mut comparison = Comparison { blocks, ..Comparison::default() };
    for part in parts {
        let outcome = part.make(&mut comparison);
        print!("{}: {} calls, ", part.name(), comparison.counts.rows());
        match outcome {
            Ok(()) => println!("0 differences"),
            Err(difference) => {
                println!("1 difference, and stopped: {difference}");
                let calls = smallest(&comparison.calls);
                println!("smallest list, {} calls:", calls.len());
                for call in calls {
                    println!("  {call:?}");
                }
                return Ok(ExitCode::FAILURE);
            }
        }
        comparison.print_times();
        print!("{}", std::mem::take(&mut comparison.moved));
        print!("{}", std::mem::take(&mut comparison.labels));
        counts.push((part.name(), std::mem::take(&mut comparison.counts)));
    }
    let table = CountTable(&counts);
    print!("{table}");
    println!("the original and the proved cache agree on all {} calls", table.rows());
    Ok(ExitCode::SUCCESS)
}

/// The list without calls that can be left out with a difference still there: many at once, then
/// fewer, then one by one, as far as the time goes. A list on long areas takes seconds each time.
fn smallest(calls: &[Call]) -> Vec<Call> {
    const LONGEST: Duration = Duration::from_secs(60);
    let started = Instant::now();
    let differs = |calls: &[Call]| Comparison::default().add_all(calls).is_err();
    let mut calls = calls.to_vec();
    let mut step = calls.len();
    while step > 1 {
        step = step.div_ceil(2);
        let mut at = calls.len();
        while at > 1 && started.elapsed() < LONGEST {
            let end = at;
            at = at.saturating_sub(step).max(1);
            let mut fewer = calls.clone();
            fewer.drain(at..end);
            if differs(&fewer) {
                calls = fewer;
            }
        }
    }
    calls
}

#[derive(Default)]
struct Comparison {
    run: Option<Run>,
    blocks: Blocks,
    lent: Lent,
    /// The list so far.
    calls: Vec<Call>,
    counts: Counts,
    /// Time within the port, calls, and the longest time, by call.
    times: [(Duration, u32, Duration); 8],
    moved: Moved,
    labels: Labels,
    tail: Tail,
    before: Lent,
}

const OPENED: &str = "the first opening is accepted";

impl Taker for Comparison {
    type Error = String;

    fn add(&mut self, call: &Call) -> Result<(), String> {
        let opened = match call {
            Call::Open { .. } => Run::open(call),
            _ => None,
        };
        if let Some(run) = opened {
            self.run = Some(run);
            self.calls.clear();
            self.calls.push(*call);
            self.open(call)?;
        } else {
            self.calls.push(*call);
            self.call(call)?;
        }
        Ok(())
    }

    fn account(&self) -> &Account {
        &self.run.as_ref().expect(OPENED).account
    }
}

impl Comparison {
    fn open(&mut self, call: &Call) -> Result<(), String> {
        let Call::Open { limits, areas } = *call else {
            unreachable!("only openings come here");
        };
        self.lent = Lent::new(areas, self.blocks);
        self.moved.open();
        // No byte is written.
        let from = Areas { bytes: 0, ..need(&limits) };
        self.compare(call, &[], from, areas, Answer::number(DONE), false)
    }

    fn call(&mut self, call: &Call) -> Result<(), String> {
        let run = self.run.as_mut().expect(OPENED);
        let offered = match *call {
            Call::Offer { length, .. } => body(run.cache.offers(), length),
            _ => Vec::new(),
        };
        let before = need(&run.account.limits);
        let expected = run.call(call);
        let after = need(&run.account.limits);
        let from =
            Areas { bytes: before.bytes.max(after.bytes), words: before.words.max(after.words) };
        let areas = match *call {
            Call::Open { areas, .. } => areas,
            _ => self.lent.areas(),
        };
        let keeps = match call {
            Call::WouldAccept { .. } | Call::ReadHandedOut { .. } => true,
            Call::Open { .. } | Call::Resize(_) | Call::PutBack { .. } => expected.number != DONE,
            _ => false,
        };
        self.compare(call, &offered, from, areas, expected, keeps)
    }

    /// Makes the call on the port. Nothing from these positions on may change, and nothing at all
    /// where the call keeps everything.
    fn compare(
        &mut self,
        call: &Call,
        offered: &[u8],
        from: Areas,
        areas: Areas,
        expected: Answer,
        keeps: bool,
    ) -> Result<(), String> {
        if keeps {
            self.before.copy_from(&self.lent);
        }
        self.lent.keep_tail(from, &mut self.tail);
        let started = Instant::now();
        let answer = self.lent.answer(call, offered, areas);
        let taken = started.elapsed();
        let time = &mut self.times[call.row_words()[0] as usize];
        *time = (time.0 + taken, time.1 + 1, time.2.max(taken));

        let run = self.run.as_ref().expect(OPENED);
        self.counts.add(call, expected.number, run.account.branches());
        if answer != expected {
            return Err(format!("expected {expected:?}, the port answers {answer:?}"));
        }
        if let Call::Open { limits, .. } | Call::Resize(limits) = call {
            let number = port::cache::validate_config(limits, areas);
            if number != expected.number {
                return Err(format!("expected {expected:?}, validate_config answers {number}"));
            }
        }
        if !self.lent.has_tail(&self.tail) {
            return Err("the port wrote past the need".to_string());
        }
        if keeps && !self.lent.is_same(&self.before) {
            return Err("the port wrote in a call that changes nothing".to_string());
        }
        let table = layout::read(self.lent.words(), self.lent.bytes().len())
            .map_err(|fault| format!("the port leaves a damaged cache: {fault}"))?;
        let state = run.cache.state();
        let limits = run.account.limits;
        if !is_state(&table, self.lent.bytes(), &state, &limits)
            || table.handed.as_ref().is_some_and(|handed| handed.id != run.account.chance.id)
        {
            return Err(format!("expected {state:?} with {limits:?}, the port holds {table:?}"));
        }
        let accepts = matches!(call, Call::Offer { .. }) && expected.number == DONE;
        self.moved.add(&table, &state, self.lent.bytes().len(), accepts);
        self.labels.add(self.lent.words());
        let areas = self.lent.areas();
        let told = self.lent.figures(areas);
        if told != Ok(figures(&state)) {
            return Err(format!("expected {state:?}, the port tells the figures {told:?}"));
        }
        if let Call::ReadHandedOut { number } = *call {
            let body = state.handed.get(number as usize).map(|body| body.bytes);
            if self.lent.handed_out(number, areas).ok() != body {
                return Err(format!("the port answers another place than that of {body:?}"));
            }
        }
        Ok(())
    }

    fn print_times(&mut self) {
        for (name, (time, calls, most)) in Call::NAMES.iter().zip(std::mem::take(&mut self.times)) {
            if calls > 0 {
                let (each, most) = ((time / calls).as_nanos(), most.as_nanos());
                println!("  {name}: {calls} calls, {each} ns each, {most} ns at most");
            }
        }
    }
}

fn need(limits: &Limits) -> Areas {
    limits.areas().expect("an open cache has legal limits")
}

/// As the call for the figures tells them.
fn figures(state: &State<'_>) -> [u64; 6] {
    let State { held, bytes, cached, dropped, handed } = state;
    [held.len() as u64, state.bodies(), *bytes, *cached, *dropped, handed.len() as u64]
}

/// Whether the areas hold what the original holds.
fn is_state(table: &Table, bytes: &[u8], state: &State<'_>, limits: &Limits) -> bool {
    let same = |entries: &[Entry], bodies: &[HeldBody<'_>]| {
        entries.len() == bodies.len()
            && entries.iter().zip(bodies).all(|(entry, body)| {
                (entry.length, entry.clock) == (body.bytes.len() as u64, body.clock)
                    && entry.bytes(bytes) == body.bytes
            })
    };
    let handed = table.handed.as_ref().map_or(&[][..], |handed| &handed.bodies);
    table.limits == *limits
        && (table.total, table.cached, table.dropped) == (state.bytes, state.cached, state.dropped)
        && table.held.len() == state.held.len()
        && table.held.iter().zip(&state.held).all(|(record, template)| {
            record.id == template.id && same(&record.bodies, &template.bodies)
        })
        && same(handed, &state.handed)
}
