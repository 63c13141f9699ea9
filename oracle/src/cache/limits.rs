//! What a cache is opened with and resized to.

/// The limits in document 01's order, the TTL in nanoseconds.
#[derive(Debug, Clone, Copy, PartialEq, Eq)]
pub struct Limits {
    pub templates: u64,
    pub bodies: u64,
    pub entry: u64,
    pub total: u64,
    pub ttl: Option<u64>,
}

/// The lengths of the areas lent, which the original does not have.
#[derive(Debug, Clone, Copy, PartialEq, Eq)]
pub struct Areas {
    pub bytes: u64,
    pub words: u64,
}

const MOST_TEMPLATES: u64 = 1_024;
const MOST_BODIES: u128 = 262_144;
const MOST_BYTES: u64 = 67_108_864;

impl Limits {
    /// The original's `PendingFlowsConfig::default`.
    pub const DEFAULTS: Self =
        Self { templates: 256, bodies: 1_024, entry: 65_531, total: 67_108_864, ttl: None };

    /// The areas that document 01 asks for, or none where no areas would do.
    pub fn areas(&self) -> Option<Areas> {
        let bodies = u128::from(self.templates) * u128::from(self.bodies);
        if self.templates > MOST_TEMPLATES || bodies > MOST_BODIES || self.total > MOST_BYTES {
            return None;
        }
        let words = 64 + 8 * self.templates + 4 * (self.templates * self.bodies);
        Some(Areas { bytes: self.total, words })
    }

    /// Whether these areas do. Document 01's 5 where not.
    pub fn fit(&self, lent: Areas) -> bool {
        self.areas().is_some_and(|needed| needed.bytes <= lent.bytes && needed.words <= lent.words)
    }

    /// The four figures, whether there is a TTL, and the TTL or 0.
    pub fn row_words(&self) -> [u64; 6] {
        let set = u64::from(self.ttl.is_some());
        [self.templates, self.bodies, self.entry, self.total, set, self.ttl.unwrap_or(0)]
    }
}
