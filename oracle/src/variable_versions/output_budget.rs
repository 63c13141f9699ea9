//! The original `output_budget.rs`, then a way in to its private fields, which must stand in
//! the same module.

include!(concat!(env!("OUT_DIR"), "/output_budget.rs"));

// Counts pass between usize and document 01's 64 bits with no loss.
const _: () = assert!(usize::BITS == 64);

impl PendingOutputPreflight {
    /// A preflight of any cost: the measuring functions reach only some.
    pub(crate) fn from_words([values, payload, remainder]: [u64; 3]) -> Self {
        Self {
            field_values: values as usize,
            field_payload_bytes: payload as usize,
            remainder_len: remainder as usize,
        }
    }

    /// Values, payload, remainder.
    pub(crate) fn words(self) -> [u64; 3] {
        [self.field_values as u64, self.field_payload_bytes as u64, self.remainder_len as u64]
    }
}

impl OutputBudgetExceeded {
    /// Limit (1 field values, 2 payload bytes), configured figure, attempted sum.
    pub(crate) fn words(self) -> [u64; 3] {
        let limit = match self.limit {
            DecodedOutputLimit::FieldValues => 1,
            DecodedOutputLimit::FieldPayloadBytes => 2,
        };
        [limit, self.configured as u64, self.attempted as u64]
    }
}

impl DecodedOutputBudget {
    /// Both limits, both uses, then the recorded excess or three zeros.
    pub(crate) fn words(&self) -> [u64; 7] {
        let [limit, configured, attempted] =
            self.exceeded.map_or([0; 3], OutputBudgetExceeded::words);
        [
            self.max_values as u64,
            self.max_payload_bytes as u64,
            self.used_values as u64,
            self.used_payload_bytes as u64,
            limit,
            configured,
            attempted,
        ]
    }
}
