//! The time of a run, and what repeated measurements come to.

use crate::counts;
use std::arch::x86_64::{_mm_lfence, _rdtsc};
use std::cell::Cell;
use std::hint::black_box;
use std::sync::OnceLock;
use std::time::{Duration, Instant};

/// Nothing before it is still under way, and nothing after it has begun.
#[inline(always)]
fn ticks() -> u64 {
    // SAFETY: both are on every x86-64.
    unsafe {
        _mm_lfence();
        let now = _rdtsc();
        _mm_lfence();
        now
    }
}

/// The time stamp moves on by steps of 10 ns on some processors, and a run shows a whole number of
/// them. So a short wait stands before each, of as many turns as its phase says, which is taken off
/// again; a figure is the mean of what the phases show.
const PHASES: usize = 32;

/// A turn takes a nanosecond or two, so that the phases lie all over a few steps. Nothing after it has
/// begun.
#[inline(always)]
fn wait(turns: usize) {
    for turn in 0..turns {
        black_box(turn);
    }
    // SAFETY: it is on every x86-64.
    unsafe { _mm_lfence() };
}

/// The nanoseconds of one run, without the clock's own; or the run is counted.
#[inline(always)]
pub fn time_of<T>(run: impl FnOnce() -> T) -> (f64, T) {
    let counting = counts::counting();
    if counting {
        counts::start();
    }
    let before = watched();
    let start = ticks();
    wait(PHASE.get());
    let answer = black_box(run());
    let end = ticks();
    let after = watched();
    if counting {
        counts::finish();
    }
    (nanoseconds(start, end, before, after), answer)
}

/// Of an interrupted run, those on the processor.
#[inline(never)]
fn nanoseconds(start: u64, end: u64, before: Watched, after: Watched) -> f64 {
    let interrupted = before.switches != after.switches;
    INTERRUPTED.set(interrupted);
    if interrupted {
        (after.cpu - before.cpu).saturating_sub(clock().cpu_own) as f64
    } else {
        clock().nanoseconds(end - start, PHASE.get())
    }
}

/// What turns ticks into nanoseconds.
struct Clock {
    ticks_per_ns: f64,
    /// Ticks, and nanoseconds of the thread's own clock, that an empty run takes: the ticks by phase.
    own: [u64; PHASES],
    cpu_own: u64,
}

fn clock() -> &'static Clock {
    static CLOCK: OnceLock<Clock> = OnceLock::new();
    CLOCK.get_or_init(Clock::new)
}

impl Clock {
    fn new() -> Self {
        let empty = |phase| {
            let start = ticks();
            wait(black_box(phase));
            black_box(());
            ticks() - start
        };
        let least = |phase| (0..10_000).map(|_| empty(phase)).min().expect("there are some");
        let own = std::array::from_fn(least);
        let cpu_empty = || thread_time() as i128 - thread_time() as i128;
        let cpu_own = (0..1_000).map(|_| -cpu_empty()).min().expect("there are some") as u64;
        let (start, begin) = (Instant::now(), ticks());
        while start.elapsed() < Duration::from_millis(50) {}
        let (nanoseconds, passed) = (start.elapsed().as_nanos(), ticks() - begin);
        Self { ticks_per_ns: passed as f64 / nanoseconds as f64, own, cpu_own }
    }

    /// Without the clock's own time and the wait. By a step of the clock it may be less than nothing.
    fn nanoseconds(&self, ticks: u64, phase: usize) -> f64 {
        (ticks as f64 - self.own[phase] as f64) / self.ticks_per_ns
    }
}

/// How long the repetitions of one row go on: for so long, or until there are so many, if that is
/// later; but no longer than `LONGEST` times as long.
#[derive(Clone, Copy)]
pub struct Budget {
    pub time: Duration,
    pub runs: usize,
}

const LONGEST: u32 = 10;

/// One side's measurements: the nanoseconds of a run, and how many calls that run made.
pub type Run<'a, S> = &'a mut dyn FnMut(&mut S) -> (f64, u64);

/// Runs all sides in turn, again and again, and gives what each took for one call. The sides share
/// a state.
pub fn interleaved<S>(budget: Budget, state: &mut S, sides: &mut [Run<'_, S>]) -> Vec<Taken> {
    let mut taken: Vec<Taken> = sides.iter().map(|_| Taken::default()).collect();
    let mut long = vec![true; sides.len()];
    let mut runs = 0;
    let start = Instant::now();
    loop {
        let phase = runs % PHASES;
        PHASE.set(phase);
        for (at, side) in sides.iter_mut().enumerate() {
            LONG.set(long[at]);
            let (time, calls) = side(state);
            LONG.set(false);
            long[at] = time > LONG_FROM;
            taken[at].add(time / calls as f64, phase, INTERRUPTED.get());
        }
        runs += 1;
        let passed = start.elapsed();
        if passed >= budget.time && (runs >= budget.runs || passed >= LONGEST * budget.time) {
            return taken;
        }
    }
}

/// The same on each of several states, one after the other, each for as long: what each side took in
/// all of them.
pub fn on_each<S>(budget: Budget, states: &mut [S], sides: &mut [Run<'_, S>]) -> Vec<Taken> {
    let mut joined: Vec<Taken> = sides.iter().map(|_| Taken::default()).collect();
    for state in states {
        let taken = interleaved(budget, state, sides);
        joined.iter_mut().zip(taken).for_each(|(side, more)| side.join(more));
    }
    joined
}

/// What one side took in each round, in nanoseconds.
pub struct Taken {
    rounds: Vec<f64>,
    /// Those without an interruption, and the least of them in each phase.
    whole: usize,
    least_whole: [f64; PHASES],
}

impl Default for Taken {
    fn default() -> Self {
        Self { rounds: Vec::new(), whole: 0, least_whole: [f64::INFINITY; PHASES] }
    }
}

/// So many runs without an interruption are enough.
const ENOUGH: usize = 3;

/// Two steps of the clock, in nanoseconds: where the phases lie further apart, some had too few runs.
const APART: f64 = 20.0;

impl Taken {
    fn add(&mut self, time: f64, phase: usize, interrupted: bool) {
        self.rounds.push(time);
        if !interrupted {
            self.least_whole[phase] = time.min(self.least_whole[phase]);
            self.whole += 1;
        }
    }

    /// The rounds of both.
    fn join(&mut self, other: Self) {
        for (least, more) in self.least_whole.iter_mut().zip(other.least_whole) {
            *least = least.min(more);
        }
        self.whole += other.whole;
        self.rounds.extend(other.rounds);
    }

    /// The least of the runs without an interruption: the mean of the least of each phase, in which a
    /// step of the clock does not show; where a phase has none, or too few, the least of all. (That is
    /// in long runs, where a step is nothing.) Where there are hardly any, the median of all. (The
    /// least of the others is none to trust: the system's account of a thread's time is off by some
    /// microseconds, either way.)
    pub fn figure(&self) -> f64 {
        if self.whole < ENOUGH {
            return median(self.rounds.clone());
        }
        let least = self.least_whole.iter().copied().fold(f64::INFINITY, f64::min);
        let mean = self.least_whole.iter().sum::<f64>() / PHASES as f64;
        if mean < least + APART { mean } else { least }
    }
}

/// The median, over the rounds, of what is worked out from each side's time in it.
pub fn median_of(taken: &[Taken], quotient: impl Fn(&[f64]) -> f64) -> f64 {
    let round = |at| taken.iter().map(|side| side.rounds[at]).collect::<Vec<f64>>();
    median((0..taken[0].rounds.len()).map(|at| quotient(&round(at))).collect())
}

fn median(mut figures: Vec<f64>) -> f64 {
    figures.sort_by(f64::total_cmp);
    figures[figures.len() / 2]
}

/// Nanoseconds from which on a run is long, and may well be interrupted: then it is watched. That
/// takes system calls, which a short run would notice.
const LONG_FROM: f64 = 20_000.0;

thread_local! {
    static LONG: Cell<bool> = const { Cell::new(false) };
    /// Turns of the wait before the next run.
    static PHASE: Cell<usize> = const { Cell::new(0) };
    /// Whether the last run was.
    static INTERRUPTED: Cell<bool> = const { Cell::new(false) };
}

/// How often the thread was taken off its processor, and its own time; zeros in a short run.
#[derive(Default)]
struct Watched {
    switches: i64,
    cpu: u64,
}

#[inline(always)]
fn watched() -> Watched {
    if LONG.get() {
        Watched { switches: involuntary_switches(), cpu: thread_time() }
    } else {
        Watched::default()
    }
}

#[cold]
#[inline(never)]
fn involuntary_switches() -> i64 {
    /// `struct rusage` of the C library: 18 words, the last of which is `ru_nivcsw`.
    type Usage = [i64; 18];
    unsafe extern "C" {
        fn getrusage(who: i32, usage: *mut Usage) -> i32;
    }
    const THREAD: i32 = 1;
    let mut usage: Usage = [0; 18];
    // SAFETY: the words are as many as are written.
    let answer = unsafe { getrusage(THREAD, &mut usage) };
    assert_eq!(answer, 0, "getrusage");
    usage[17]
}

/// Nanoseconds that the thread was on a processor.
#[cold]
#[inline(never)]
fn thread_time() -> u64 {
    unsafe extern "C" {
        fn clock_gettime(clock: i32, time: *mut [i64; 2]) -> i32;
    }
    const THREAD_CPU_TIME: i32 = 3;
    let mut time = [0; 2];
    // SAFETY: `struct timespec` is two words.
    let answer = unsafe { clock_gettime(THREAD_CPU_TIME, &mut time) };
    assert_eq!(answer, 0, "clock_gettime");
    time[0] as u64 * 1_000_000_000 + time[1] as u64
}
