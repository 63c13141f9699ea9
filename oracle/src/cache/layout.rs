//! docs/LAYOUT.md: the cache that words and bytes stand for, or why they stand for none. Shares
//! nothing with the proved code.

use super::limits::Limits;

/// A body: where it is in the bytes, and the clock reading of its offer.
#[derive(Debug, Clone, Copy, PartialEq, Eq)]
pub struct Entry {
    pub place: u64,
    pub length: u64,
    pub clock: u64,
}

impl Entry {
    pub fn bytes<'a>(&self, bytes: &'a [u8]) -> &'a [u8] {
        &bytes[self.place as usize..(self.place + self.length) as usize]
    }
}

/// A template with its bodies, in table order.
#[derive(Debug, Clone, PartialEq, Eq)]
pub struct Record {
    pub id: u16,
    pub bodies: Vec<Entry>,
}

#[derive(Debug, PartialEq, Eq)]
pub struct Table {
    pub limits: Limits,
    pub cached: u64,
    pub dropped: u64,
    pub total: u64,
    /// Least recent first.
    pub held: Vec<Record>,
    pub handed: Option<Record>,
}

const HEADER: usize = 64;
const ENTRY: usize = 4;
const RECORD: usize = 8;
const LABELS: usize = 1_024;
const NO_RECORD: u16 = u16::MAX;

/// The labels of a cache's templates, the handed-out one's among them.
pub fn labels(words: &[u64]) -> impl ExactSizeIterator<Item = u64> {
    let records_at = HEADER + ENTRY * (words[0] * words[1]) as usize;
    let records = words[records_at..].chunks_exact(RECORD).take((words[9] + words[11]) as usize);
    records.map(|record| record[1])
}

/// The cache in these words beside so many bytes, or the fault that number 28 is answered for.
pub fn read(words: &[u64], byte_count: usize) -> Result<Table, &'static str> {
    if words.len() < HEADER {
        return Err("no room for a header");
    }
    let [t, b, e, total] = [words[0], words[1], words[2], words[3]];
    if t == 0 || t > 1_024 {
        return Err("limit: templates");
    }
    if b == 0 || b > 262_144 / t {
        return Err("limit: bodies");
    }
    if e == 0 || e > 65_531 {
        return Err("limit: entry size");
    }
    if total < e || total > 67_108_864 || total > byte_count as u64 {
        return Err("limit: total");
    }
    let records_at = HEADER + ENTRY * (t * b) as usize;
    if words.len() < records_at + RECORD * t as usize {
        return Err("limit: words");
    }
    let ttl = match words[4] {
        0 => None,
        1 => Some(words[5]),
        _ => return Err("flag: TTL"),
    };
    if words[11] > 1 {
        return Err("flag: handed out");
    }
    let (n, m, c) = (words[9], words[10], words[11]);
    if n > t || n + c > t {
        return Err("count: templates");
    }
    if m > t * b {
        return Err("count: entries");
    }
    let records = words[records_at..].chunks_exact(RECORD).take((n + c) as usize);

    // Records by label.
    let mut by_label = [NO_RECORD; LABELS];
    let mut found: Vec<Record> = Vec::with_capacity((n + c) as usize);
    for (at, record) in records.clone().enumerate() {
        let Ok(id) = u16::try_from(record[0]) else {
            return Err("record: key");
        };
        let Some(slot) = by_label.get_mut(usize::try_from(record[1]).unwrap_or(LABELS)) else {
            return Err("record: label");
        };
        if *slot != NO_RECORD {
            return Err("record: label twice");
        }
        *slot = at as u16;
        if record[2] == 0 || record[2] > b {
            return Err("record: count out of range");
        }
        found.push(Record { id, bodies: Vec::new() });
    }

    // Entries, each under its record.
    let mut end = 0;
    let mut sum = 0;
    for entry in words[HEADER..records_at].chunks_exact(ENTRY).take(m as usize) {
        let label = usize::try_from(entry[0]).unwrap_or(LABELS);
        let at = match by_label.get(label) {
            Some(&at) if at != NO_RECORD => usize::from(at),
            _ => return Err("entry: no record"),
        };
        let entry = Entry { place: entry[1], length: entry[2], clock: entry[3] };
        if entry.length > e {
            return Err("entry: length");
        }
        if entry.place < end {
            return Err("entry: overlaps");
        }
        match entry.place.checked_add(entry.length) {
            Some(next) if next <= total => end = next,
            _ => return Err("entry: outside"),
        }
        if (at as u64) < n {
            sum += entry.length;
        }
        found[at].bodies.push(entry);
    }
    if records.clone().zip(&found).any(|(record, found)| record[2] != found.bodies.len() as u64) {
        return Err("record: count");
    }
    if sum != words[8] {
        return Err("total");
    }

    // The index.
    let mut last = None;
    for record in records {
        let Some(next) = usize::try_from(record[3]).ok().and_then(|at| found.get(at)) else {
            return Err("index: outside");
        };
        if last.is_some_and(|last| last >= next.id) {
            return Err("index: does not rise");
        }
        last = Some(next.id);
    }

    let handed = if c == 1 { found.pop() } else { None };
    let limits = Limits { templates: t, bodies: b, entry: e, total, ttl };
    Ok(Table { limits, cached: words[6], dropped: words[7], total: words[8], held: found, handed })
}
