//! What an offer which evicts or packs does in this layout, by hand, with no test and no proof.
//!
//! `Runs` are the moves alone: the bodies, and the entries, that lie side by side and go the same
//! way, each moved at once by the C library's `memmove`. `offer` finds them as a routine by hand
//! would, and brings the entries and the bodies to where the library leaves them. No record, header
//! or new body is written: it stands for what an eviction or a move adds to an offer, the records
//! aside. The labels are the templates' numbers, and template 0 is the one that goes.

use crate::shape::{Call, Shape};
use std::ptr;

const HEADER: usize = 64;
const EVICTED: u64 = 0;

/// The words of an entry.
type Entry = [u64; 4];
const LABEL: usize = 0;
const PLACE: usize = 1;
const LENGTH: usize = 2;

/// Bytes, or words, that move together: where they begin, where they go, and how many they are.
struct Run {
    from: usize,
    to: usize,
    length: usize,
}

impl Run {
    /// Bytes that stay where they are are not copied.
    fn make<T: Copy>(&self, area: &mut [T]) {
        if self.from != self.to {
            area.copy_within(self.from..self.from + self.length, self.to);
        }
    }
}

/// The moves of an offer, and nothing else.
pub struct Runs {
    bodies: Vec<Run>,
    entries: Vec<Run>,
}

impl Runs {
    /// Those of the cache that stands in these words.
    pub fn of(shape: &Shape, words: &[u64]) -> Self {
        let (entries, _) = words[HEADER..].as_chunks::<4>();
        let entries = &entries[..shape.bodies()];
        let moves_bodies = matches!(shape.call, Call::OfferPacks | Call::OfferEvictsBytes);
        let moves_entries = shape.call != Call::OfferPacks;
        let mut runs = Self { bodies: Vec::new(), entries: Vec::new() };
        let (mut kept, mut end) = (0, 0);
        for (at, entry) in entries.iter().enumerate() {
            if moves_entries && entry[LABEL] == EVICTED {
                continue;
            }
            let (place, length) = (entry[PLACE] as usize, entry[LENGTH] as usize);
            if moves_bodies {
                add(&mut runs.bodies, place, end, length);
            }
            if moves_entries {
                add(&mut runs.entries, HEADER + 4 * at, HEADER + 4 * kept, 4);
            }
            kept += 1;
            end += length;
        }
        runs.bodies.retain(|run| run.from != run.to);
        runs.entries.retain(|run| run.from != run.to);
        runs
    }

    /// In bytes.
    pub fn moved(&self) -> usize {
        length_of(&self.bodies) + 8 * length_of(&self.entries)
    }

    pub fn make(&self, words: &mut [u64], bytes: &mut [u8]) {
        self.bodies.iter().for_each(|run| run.make(bytes));
        self.entries.iter().for_each(|run| run.make(words));
    }

    /// One move of as many bytes and one of as many words, each to the front of where they go, from
    /// as far as they move in the mean.
    pub fn at_once(&self) -> Self {
        Self { bodies: mean_of(&self.bodies), entries: mean_of(&self.entries) }
    }
}

fn length_of(runs: &[Run]) -> usize {
    runs.iter().map(|run| run.length).sum()
}

fn mean_of(runs: &[Run]) -> Vec<Run> {
    let length = length_of(runs);
    let far: usize = runs.iter().map(|run| run.length * (run.from - run.to)).sum();
    let first = runs.first().map_or(0, |run| run.to);
    let last = runs.last().map_or(0, |run| run.from + run.length);
    // at least one, and within what was there
    let far =
        far.checked_div(length).unwrap_or(0).clamp(1, (last - first).max(length + 1) - length);
    Vec::from_iter((length > 0).then_some(Run { from: first + far, to: first, length }))
}

/// One more that moves: with the run before, where it lies behind that and goes there.
fn add(runs: &mut Vec<Run>, from: usize, to: usize, length: usize) {
    match runs.last_mut() {
        Some(run) if run.from + run.length == from && run.to + run.length == to => {
            run.length += length;
        }
        _ => runs.push(Run { from, to, length }),
    }
}

/// Gives how many entries stay. Which do, and whether a body lies behind the one before, is told by
/// the entries alone, as in the library.
pub fn offer(shape: &Shape, words: &mut [u64], bytes: &mut [u8]) -> usize {
    let (entries, _) = words[HEADER..].as_chunks_mut::<4>();
    let entries = &mut entries[..shape.bodies()];
    match shape.call {
        Call::OfferPacks => pack(entries, bytes),
        Call::OfferEvictsBytes => evict_and_pack(entries, bytes),
        _ => evict(entries),
    }
}

impl Run {
    /// The run that a body at this place goes on with, or the next one.
    fn up_to(self, bytes: &mut [u8], place: usize) -> Self {
        if self.from + self.length == place {
            return self;
        }
        self.make(bytes);
        Self { from: place, to: self.to + self.length, length: 0 }
    }
}

fn pack(entries: &mut [Entry], bytes: &mut [u8]) -> usize {
    let mut run = Run { from: 0, to: 0, length: 0 };
    for entry in entries.iter_mut() {
        run = run.up_to(bytes, entry[PLACE] as usize);
        entry[PLACE] = (run.to + run.length) as u64;
        run.length += entry[LENGTH] as usize;
    }
    run.make(bytes);
    entries.len()
}

fn evict(entries: &mut [Entry]) -> usize {
    let mut kept = 0;
    let first = entries.as_mut_ptr();
    for at in 0..entries.len() {
        // SAFETY: both places lie among the entries, as no more are kept than were passed.
        unsafe {
            let entry = first.add(at);
            if (*entry)[LABEL] != EVICTED {
                ptr::copy(entry, first.add(kept), 1);
                kept += 1;
            }
        }
    }
    kept
}

fn evict_and_pack(entries: &mut [Entry], bytes: &mut [u8]) -> usize {
    let mut kept = 0;
    let mut run = Run { from: 0, to: 0, length: 0 };
    for at in 0..entries.len() {
        let [label, place, length, clock] = entries[at];
        if label == EVICTED {
            continue;
        }
        run = run.up_to(bytes, place as usize);
        let packed = (run.to + run.length) as u64;
        // SAFETY: no more are kept than were passed.
        unsafe { *entries.get_unchecked_mut(kept) = [label, packed, length, clock] };
        run.length += length as usize;
        kept += 1;
    }
    run.make(bytes);
    kept
}
