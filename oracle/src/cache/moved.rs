//! In how many calls bodies moved within the byte area, by what the blocks that they are moved in
//! make a difference for (`crates/areas/src/bytes.rt`).

use super::layout::{Entry, Table};
use super::original::{HeldBody, State};
use std::cmp::Ordering;
use std::fmt;

/// The blocks are shorter in longer areas.
const LONG_AREA: usize = 524_288;
const BLOCK: u64 = 2_048;
const SHORT_BLOCK: u64 = 512;

#[derive(Default)]
pub struct Moved {
    /// Where the body of each offer since the opening was last seen.
    places: Vec<Option<u64>>,
    /// How many bodies there were after the call before.
    bodies: usize,
    calls: u64,
    /// In areas up to the border, and in longer ones.
    areas: [Tally; 2],
}

/// Calls in areas of one sort.
#[derive(Default)]
struct Tally {
    moving: u64,
    /// Of these, the ones in which a body before the first gap stayed.
    staying: u64,
    /// Of these, the ones in which bodies went too. Only an offer among them can pack in its sweep.
    dropping: u64,
    /// Of the last, the ones with a TTL. Bodies may have gone as expired in them.
    with_ttl: u64,
    /// Of the moving, the ones that moved a body of this sort: up to a block or longer, by less than a
    /// block, by one, or by more.
    sorts: [[u64; 3]; 2],
}

impl Moved {
    pub fn open(&mut self) {
        self.places.clear();
        self.bodies = 0;
    }

    /// Sees where the bodies are after a call on an area of so many bytes, and whether it accepted
    /// a body.
    pub fn add(&mut self, table: &Table, state: &State<'_>, area: usize, accepts: bool) {
        let ttl = table.limits.ttl.is_some();
        let held = table.held.iter().zip(&state.held);
        let held = held.flat_map(|(record, template)| record.bodies.iter().zip(&template.bodies));
        let handed = table.handed.iter().flat_map(|record| &record.bodies).zip(&state.handed);
        let is_long = area > LONG_AREA;
        let block = if is_long { SHORT_BLOCK } else { BLOCK };
        let mut seen = [[false; 3]; 2];
        let mut stays = false;
        for (entry, body) in held.chain(handed).filter(|(entry, _)| entry.length > 0) {
            match self.distance(entry, body) {
                Some(0) => stays = true,
                Some(distance) => {
                    let by = match distance.cmp(&block) {
                        Ordering::Less => 0,
                        Ordering::Equal => 1,
                        Ordering::Greater => 2,
                    };
                    seen[usize::from(entry.length > block)][by] = true;
                }
                None => {}
            }
        }
        let records = table.held.iter().chain(&table.handed);
        let bodies = records.map(|record| record.bodies.len()).sum();
        let drops = bodies < self.bodies + usize::from(accepts);
        self.bodies = bodies;
        self.calls += 1;
        self.areas[usize::from(is_long)].add(seen, stays, drops, ttl);
    }

    /// How far a body went since it was last seen, where it was.
    fn distance(&mut self, entry: &Entry, body: &HeldBody<'_>) -> Option<u64> {
        let offer = body.offer as usize;
        if self.places.len() <= offer {
            self.places.resize(offer + 1, None);
        }
        let before = self.places[offer].replace(entry.place)?;
        Some(before.abs_diff(entry.place))
    }
}

impl Tally {
    fn add(&mut self, seen: [[bool; 3]; 2], stays: bool, drops: bool, ttl: bool) {
        let moves = seen.as_flattened().contains(&true);
        self.moving += u64::from(moves);
        self.staying += u64::from(moves && stays);
        self.dropping += u64::from(moves && drops);
        self.with_ttl += u64::from(moves && drops && ttl);
        let counts = self.sorts.as_flattened_mut();
        counts.iter_mut().zip(seen.as_flattened()).for_each(|(count, &is)| *count += u64::from(is));
    }
}

impl fmt::Display for Moved {
    fn fmt(&self, to: &mut fmt::Formatter<'_>) -> fmt::Result {
        let areas = [("up to", BLOCK), ("above", SHORT_BLOCK)];
        for ((which, block), tally) in areas.iter().zip(&self.areas) {
            let Tally { moving, staying, dropping, with_ttl, sorts } = tally;
            if *moving == 0 {
                continue;
            }
            let share = 100.0 * *moving as f64 / self.calls as f64;
            write!(to, "  bodies move in areas {which} {LONG_AREA} bytes: {moving} calls, ")?;
            write!(to, "{share:.4} %; in {staying} of them others before them stay, ")?;
            writeln!(to, "in {dropping} bodies go in the same call, with a TTL in {with_ttl}")?;
            for (length, [less, one, more]) in ["up to", "above"].iter().zip(sorts) {
                write!(to, "    bodies of {length} {block} bytes: by less in {less} calls, ")?;
                writeln!(to, "by {block} in {one}, by more in {more}")?;
            }
        }
        Ok(())
    }
}
