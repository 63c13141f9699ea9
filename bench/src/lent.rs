//! Lent areas with a cache in them, written by docs/LAYOUT.md.

use crate::port;
use crate::shape::{Expired, Shape, id_of};
use std::hint::black_box;

const HEADER: usize = 64;

pub struct Lent {
    pub words: Vec<u64>,
    pub bytes: Vec<u8>,
    /// The live words as they stand before a call: header with entries, records.
    front: Vec<u64>,
    records: Vec<u64>,
    records_at: usize,
}

impl Lent {
    pub fn new(shape: &Shape) -> Self {
        let limits = shape.limits;
        let records_at = HEADER + 4 * limits.templates * limits.bodies;
        let mut words = vec![0; records_at + 8 * limits.templates];
        let bytes = vec![0; limits.total];
        assert_eq!(port::open(&mut words, &bytes, limits), 0, "{shape:?}");
        let front = front(shape);
        let records = records(shape);
        words[..front.len()].copy_from_slice(&front);
        words[records_at..records_at + records.len()].copy_from_slice(&records);
        let lent = Self { words, bytes, front, records, records_at };
        lent.check(shape);
        lent
    }

    /// The library takes the areas for the cache that was meant.
    fn check(&self, shape: &Shape) {
        let (number, figures) = port::figures(&self.words, &self.bytes);
        let handed = if shape.handed_out { shape.count_of(shape.newest()) } else { 0 };
        let held = shape.bodies() - handed;
        let templates = shape.templates - usize::from(shape.handed_out);
        let meant = [templates, held, held * shape.length, shape.bodies(), 0, handed];
        assert_eq!((number, figures), (0, meant.map(|figure| figure as u64)), "{shape:?}");
    }

    /// The live words as they were. Bytes of bodies are not put back: no call looks at them.
    /// Twice, so that it does not matter what was in the processor's caches before.
    pub fn restore(&mut self) {
        let end = self.records_at + self.records.len();
        for _ in 0..2 {
            self.words[..self.front.len()].copy_from_slice(black_box(&self.front));
            self.words[self.records_at..end].copy_from_slice(&self.records);
        }
    }

    /// The live words: header with entries, records.
    pub fn live(&self) -> (&[u64], &[u64]) {
        let end = self.records_at + self.records.len();
        (&self.words[..self.front.len()], &self.words[self.records_at..end])
    }
}

fn front(shape: &Shape) -> Vec<u64> {
    let limits = shape.limits;
    let mut words = vec![0; HEADER];
    let handed = usize::from(shape.handed_out);
    let handed_bodies = handed * shape.count_of(shape.newest());
    let held_bytes = (shape.bodies() - handed_bodies) * shape.length;
    let header = [
        limits.templates,
        limits.bodies,
        limits.entry,
        limits.total,
        usize::from(limits.ttl.is_some()),
        limits.ttl.unwrap_or(0) as usize,
        shape.bodies(),
        0,
        held_bytes,
        shape.templates - handed,
        shape.bodies(),
        handed,
    ];
    for (word, figure) in words.iter_mut().zip(header) {
        *word = figure as u64;
    }
    for (at, template) in shape.arrivals().into_iter().enumerate() {
        let place = shape.gap + at * shape.length;
        let clock =
            if shape.expired == Expired::None { at as u64 } else { shape.cached_at(template) };
        words.extend([shape.label_of(template), place as u64, shape.length as u64, clock]);
    }
    words
}

fn records(shape: &Shape) -> Vec<u64> {
    let mut index: Vec<usize> = (0..shape.templates).collect();
    index.sort_by_key(|&template| id_of(template));
    let record = |(template, position): (usize, usize)| {
        let count = shape.count_of(template) as u64;
        let (id, label) = (u64::from(id_of(template)), shape.label_of(template));
        [id, label, count, position as u64, 0, 0, 0, 0]
    };
    index.into_iter().enumerate().flat_map(record).collect()
}
