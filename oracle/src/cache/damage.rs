//! Command `damage-cache`: every call of the proved cache on areas in which words and bytes were
//! changed. `layout::read` says whether they still hold a cache: if not, the answer is 28 and
//! nothing changes. If so, document 01's account of that cache gives the answer and what is then
//! held.

use super::account::{Account, Body, Template};
use super::body::body;
use super::call::{Answer, Call};
use super::generator::Generator;
use super::generator::profile::{MIDDLE, Profile, SMALL};
use super::layout::{self, Entry, Record, Table};
use super::lent::{Blocks, Lent, Tail};
use super::limits::{Areas, Limits};
use super::redo;
use super::run::Run;
use crate::numbers::{DAMAGED, DONE};
use crate::port;
use crate::random::Random;
use std::collections::BTreeMap;
use std::process::ExitCode;

/// Seed and number of damaged areas. Each call is made on each.
pub const DEFAULTS: (u64, u64) = (1, 300_000);

/// Damaged areas out of one list of calls.
const TRIALS_OF_LIST: u64 = 20;
const SMALL_LIST: u64 = 40;
const MIDDLE_LIST: u64 = 400;
const MIDDLE_PERCENT: u64 = 3;

/// How often the areas are first written anew, for a cache that no calls lead to.
const REDONE_PERCENT: u64 = 40;

const HEADER_USED: usize = 12;

pub fn run(seed: u64, trials: u64) -> Result<ExitCode, String> {
    run_on(Blocks::Guarded, seed, trials)
}

pub fn run_on(blocks: Blocks, seed: u64, trials: u64) -> Result<ExitCode, String> {
    let mut tally = Tally::default();
    let mut random = Random::new(seed);
    while tally.trials < trials {
        let middle = random.percent(MIDDLE_PERCENT);
        let (profile, longest): (&'static Profile, u64) =
            if middle { (&MIDDLE, MIDDLE_LIST) } else { (&SMALL, SMALL_LIST) };
        let mut generator = Generator::new(random.word(), profile);
        let source = Source::new(&mut generator, random.below(longest), blocks);
        for _ in 0..TRIALS_OF_LIST {
            if let Err(difference) = tally.trial(&source, &mut random) {
                println!("trial {}: {difference}", tally.trials);
                return Ok(ExitCode::FAILURE);
            }
        }
    }
    tally.print();
    Ok(ExitCode::SUCCESS)
}

/// A cache after some calls.
struct Source {
    lent: Lent,
    limits: Limits,
}

impl Source {
    fn new(generator: &mut Generator, calls: u64, blocks: Blocks) -> Self {
        let opening = generator.opening();
        let Call::Open { areas, .. } = opening else {
            unreachable!("a list begins with an opening");
        };
        let mut run = Run::open(&opening).expect("the first opening is accepted");
        let mut lent = Lent::new(areas, blocks);
        lent.answer(&opening, &[], areas);
        for _ in 0..calls {
            let call = generator.next(&run.account);
            if matches!(call, Call::Open { .. }) {
                continue;
            }
            let offered = offered(&call, run.cache.offers());
            run.call(&call);
            lent.answer(&call, &offered, areas);
        }
        Self { lent, limits: run.account.limits }
    }
}

fn offered(call: &Call, offer: u64) -> Vec<u8> {
    match *call {
        Call::Offer { length, .. } => body(offer, length),
        _ => Vec::new(),
    }
}

#[derive(Default)]
struct Tally {
    trials: u64,
    well_formed: u64,
    /// Faults, of the trials.
    faults: BTreeMap<&'static str, u64>,
    /// By call and number, whether the areas were well-formed.
    answers: BTreeMap<(bool, u64, u32), u64>,
    work: Lent,
    tail: Tail,
}

impl Tally {
    fn trial(&mut self, source: &Source, random: &mut Random) -> Result<(), String> {
        let mut lent = source.lent.clone();
        let is_redone = random.percent(REDONE_PERCENT);
        if is_redone {
            redo::redo(&mut lent, random);
        }
        let undamaged = layout::read(lent.words(), lent.bytes().len());
        assert!(undamaged.is_ok(), "before any damage: {undamaged:?}, redone {is_redone}");
        let damages = random.pick(&[0, 1, 1, 1, 1, 1, 2, 2, 3, 5]);
        let changes: Vec<String> =
            (0..damages).map(|_| damage(&mut lent, &source.limits, random)).collect();
        let areas = lent_part(&lent, random);
        let read = layout::read(&lent.words()[..areas.words as usize], areas.bytes as usize);
        self.trials += 1;
        match &read {
            Ok(_) => self.well_formed += 1,
            Err(fault) => *self.faults.entry(fault).or_default() += 1,
        }
        for call in calls(&lent, &source.limits, areas, random) {
            self.call(&lent, areas, &read, &call).map_err(|difference| {
                format!("redone {is_redone}, {changes:?} {areas:?} {call:?}: {difference}")
            })?;
        }
        Ok(())
    }

    fn call(
        &mut self,
        damaged: &Lent,
        areas: Areas,
        read: &Result<Table, &'static str>,
        call: &Call,
    ) -> Result<(), String> {
        self.work.copy_from(damaged);
        let entries = damaged.words().get(10).copied().unwrap_or(0);
        let offered = offered(call, entries);
        let answer = self.work.answer(call, &offered, areas);
        let key = (read.is_ok(), call.row_words()[0], answer.number);
        *self.answers.entry(key).or_default() += 1;
        if let Call::Open { limits, .. } = call {
            return self.check_opening(damaged, areas, limits, answer);
        }
        let table = match read {
            Err(fault) if answer.number != DAMAGED => {
                return Err(format!("answered {answer:?} with this fault: {fault}"));
            }
            Err(_) if !self.work.is_same(damaged) => {
                return Err("answered 28, and the areas changed".to_string());
            }
            Err(_) => return self.check_damaged_figures(areas),
            Ok(table) => table,
        };
        let mut expected = Expected::new(table, damaged.bytes(), areas, offered);
        let expected_answer = expected.account.call(call);
        if answer != expected_answer {
            return Err(format!("answered {answer:?}, not {expected_answer:?}, on {table:?}"));
        }
        let most = larger(need(&table.limits), need(&expected.account.limits));
        damaged.keep_tail(most, &mut self.tail);
        if !self.work.has_tail(&self.tail) {
            return Err("wrote past the need".to_string());
        }
        let left = layout::read(&self.work.words()[..areas.words as usize], areas.bytes as usize)
            .map_err(|fault| format!("left a damaged cache: {fault}"))?;
        if !expected.is_in(&left, self.work.bytes()) {
            return Err(format!("left {left:?}, not {:?}", expected.account));
        }
        let told = self.work.figures(areas);
        if told != Ok(figures(&left)) {
            return Err(format!("left {left:?}, and tells the figures {told:?}"));
        }
        if let Call::ReadHandedOut { number } = *call {
            let body = left.handed.as_ref().and_then(|handed| handed.bodies.get(number as usize));
            let body = body.map(|entry| entry.bytes(damaged.bytes()));
            if self.work.handed_out(number, areas).ok() != body {
                return Err(format!("answered another place than that of {body:?}"));
            }
        }
        Ok(())
    }

    fn check_damaged_figures(&mut self, areas: Areas) -> Result<(), String> {
        match self.work.figures(areas) {
            Err(DAMAGED) => Ok(()),
            told => Err(format!("tells the figures {told:?} of damaged areas")),
        }
    }

    /// An opening takes any areas.
    fn check_opening(
        &mut self,
        damaged: &Lent,
        areas: Areas,
        limits: &Limits,
        answer: Answer,
    ) -> Result<(), String> {
        let number = super::account::limits_number(limits, areas);
        if answer.number != number || port::cache::validate_config(limits, areas) != number {
            return Err(format!("an opening answered {}, not {number}", answer.number));
        }
        if number != DONE {
            return if self.work.is_same(damaged) {
                Ok(())
            } else {
                Err("a refused opening wrote".to_string())
            };
        }
        damaged.keep_tail(Areas { bytes: 0, ..need(limits) }, &mut self.tail);
        let left = layout::read(&self.work.words()[..areas.words as usize], areas.bytes as usize);
        let empty = Table {
            limits: *limits,
            cached: 0,
            dropped: 0,
            total: 0,
            held: Vec::new(),
            handed: None,
        };
        if !self.work.has_tail(&self.tail) || left.as_ref() != Ok(&empty) {
            return Err(format!("an opening left {left:?}"));
        }
        Ok(())
    }

    fn print(&self) {
        let Self { trials, well_formed, .. } = self;
        println!("{trials} damaged areas, {well_formed} of them still well-formed; 0 differences");
        for (fault, count) in &self.faults {
            println!("  {count:>8}  {fault}");
        }
        for ((is_well_formed, call, number), count) in &self.answers {
            let areas = if *is_well_formed { "well-formed" } else { "damaged" };
            println!("  {count:>8}  {areas}, {}: {number}", Call::NAMES[*call as usize]);
        }
    }
}

/// As the call for the figures tells them.
fn figures(table: &Table) -> [u64; 6] {
    let bodies = table.held.iter().map(|record| record.bodies.len() as u64).sum();
    let handed = table.handed.as_ref().map_or(0, |handed| handed.bodies.len() as u64);
    [table.held.len() as u64, bodies, table.total, table.cached, table.dropped, handed]
}

fn need(limits: &Limits) -> Areas {
    limits.areas().expect("a cache has legal limits")
}

fn larger(one: Areas, other: Areas) -> Areas {
    Areas { bytes: one.bytes.max(other.bytes), words: one.words.max(other.words) }
}

/// The account of a cache that was read from areas. The counters begin anew in it; bodies are
/// known by their number in the table.
struct Expected {
    account: Account,
    cached_before: u64,
    dropped_before: u64,
    bodies: Vec<Vec<u8>>,
}

impl Expected {
    fn new(table: &Table, bytes: &[u8], areas: Areas, offered: Vec<u8>) -> Self {
        let records = || table.held.iter().chain(&table.handed);
        let mut entries: Vec<Entry> =
            records().flat_map(|record| record.bodies.iter().copied()).collect();
        // Several of length 0 may have the same place, and then the same bytes.
        entries.sort_by_key(|entry| (entry.place, entry.length, entry.clock));
        let number = |entry: &Entry| entries.iter().position(|other| other == entry);
        let body = |entry: &Entry| Body {
            offer: number(entry).expect("an entry of the table") as u64,
            length: entry.length,
            clock: entry.clock,
        };
        let template = |record: &Record| Template {
            id: record.id,
            bodies: record.bodies.iter().map(body).collect(),
        };
        let held = table.held.iter().map(template).collect();
        let chance = table.handed.as_ref().map(template).unwrap_or_default();
        let account = Account::of_areas(&table.limits, areas, held, chance, entries.len() as u64);
        let mut bodies: Vec<Vec<u8>> =
            entries.iter().map(|entry| entry.bytes(bytes).to_vec()).collect();
        bodies.push(offered);
        Self { account, cached_before: table.cached, dropped_before: table.dropped, bodies }
    }

    /// Whether the areas hold what the account has. It counted from the bodies it began with.
    fn is_in(&self, left: &Table, bytes: &[u8]) -> bool {
        let Account { held, chance, limits, .. } = &self.account;
        let accepted = self.account.cached - (self.bodies.len() as u64 - 1);
        let same = |entries: &[Entry], bodies: &[Body]| {
            entries.len() == bodies.len()
                && entries.iter().zip(bodies).all(|(entry, body)| {
                    (entry.length, entry.clock) == (body.length, body.clock)
                        && entry.bytes(bytes) == self.bodies[body.offer as usize]
                })
        };
        let handed = left.handed.as_ref().map_or(&[][..], |handed| &handed.bodies);
        left.limits == *limits
            && left.total == self.account.bytes()
            && left.cached == self.cached_before.saturating_add(accepted)
            && left.dropped == self.dropped_before.saturating_add(self.account.dropped)
            && left.held.len() == held.len()
            && left.held.iter().zip(held).all(|(record, template)| {
                record.id == template.id && same(&record.bodies, &template.bodies)
            })
            && same(handed, &chance.bodies)
            && left.handed.as_ref().is_none_or(|handed| handed.id == chance.id)
    }
}

/// Mostly all that is lent; else less.
fn lent_part(lent: &Lent, random: &mut Random) -> Areas {
    let mut areas = lent.areas();
    match random.below(40) {
        0 => areas.words = random.below(areas.words + 1),
        1 => areas.words = random.below(areas.words.min(70) + 1),
        2 => areas.bytes = random.below(areas.bytes + 1),
        3 => areas.words -= 1,
        _ => {}
    }
    areas
}

/// Changes a word or a byte, and says which.
fn damage(lent: &mut Lent, limits: &Limits, random: &mut Random) -> String {
    let need = need(limits);
    let entries = 64 + 4 * (limits.templates * limits.bodies) as usize;
    let (m, n) = (lent.words()[10], lent.words()[9].saturating_add(lent.words()[11]));
    let used = |first: usize, count: u64, size: u64, random: &mut Random| {
        let count = count.clamp(1, 20);
        first + random.below(count * size) as usize
    };
    let at = match random.below(16) {
        0..=4 => random.index(HEADER_USED),
        5 => random.index(64),
        6..=8 => used(64, m, 4, random),
        9..=12 => used(entries, n, 8, random),
        13 => random.index(need.words as usize),
        _ => {
            let at = random.index(need.bytes as usize);
            let byte = random.word() as u8;
            lent.bytes_mut()[at] = byte;
            return format!("byte {at} is {byte}");
        }
    };
    let at = at.min(lent.words().len() - 1);
    let old = lent.words()[at];
    let other = random.index(need.words as usize);
    let word = match random.below(12) {
        0 | 1 => old ^ 1 << random.below(64),
        2 => old ^ 1 << random.below(4),
        3 => old.wrapping_add(1),
        4 => old.wrapping_sub(1),
        5 => random.below(4),
        6 => lent.words()[other],
        7 => random.word(),
        8 => random.pick(&[u64::MAX, u64::MAX - 1, 1 << 63, 1 << 32, 65_535, 65_536, 1_023, 1_024]),
        9 => random.below(need.bytes + 2),
        10 => {
            // Two words change places.
            let step = random.pick(&[4, 8]);
            let with = (at + step).min(lent.words().len() - 1);
            let moved = lent.words()[with];
            lent.words_mut()[with] = old;
            moved
        }
        _ => random.below(16),
    };
    lent.words_mut()[at] = word;
    format!("word {at} was {old}, is {word}")
}

/// Each call, with figures by chance around those in the areas.
fn calls(lent: &Lent, limits: &Limits, areas: Areas, random: &mut Random) -> Vec<Call> {
    let words = lent.words();
    let entries = 64 + 4 * (limits.templates * limits.bodies) as usize;
    let mut id = || match random.below(4) {
        0 => 300 + random.below(4) as u16,
        _ => words[entries + 8 * random.index(limits.templates as usize)] as u16,
    };
    let ids = [id(), id(), id(), id()];
    let handed = match words[11] {
        1 => words.get(entries + 8 * words[9].min(1_024) as usize).copied().unwrap_or(300),
        _ => u64::from(ids[2]),
    };
    let put_back = if random.percent(70) { handed as u16 } else { ids[2] };
    let length = match random.below(8) {
        0 => 0,
        1 => words[2].min(65_531),
        2 => words[2].min(65_531) + 1,
        _ => random.below(limits.entry + 1),
    };
    let clock = random.pick(&[0, 1, 5, 1_000, 1 << 41, u64::MAX]);
    let mut vary = |figure: u64| match random.below(4) {
        0 => (figure / 2).max(1),
        1 => figure + random.below(2),
        2 => figure.saturating_sub(1),
        _ => figure,
    };
    let resized = Limits {
        templates: vary(limits.templates),
        bodies: vary(limits.bodies),
        entry: vary(limits.entry),
        total: vary(limits.total),
        ttl: limits.ttl,
    };
    vec![
        Call::Open { limits: resized, areas },
        Call::Offer { id: ids[0], length, clock },
        Call::Drain { id: ids[1], clock },
        Call::PutBack { id: put_back, n: random.below(4) },
        Call::Resize(resized),
        Call::Clear,
        Call::WouldAccept { id: ids[3], length, clock },
        Call::ReadHandedOut { number: random.below(3) },
    ]
}
