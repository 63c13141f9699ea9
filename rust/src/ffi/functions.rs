//! The functions of `libnetflow_pending.a`, as `include/netflow_pending.h` declares them, and no
//! other code. Each answers document 01's number, 0 for success. A `*const` is not written. A slice
//! of no entries comes with a pointer that is not read.

// The preflight: the cost is written beside a 0 only.
unsafe extern "C" {
    pub fn netflow_preflight_v9_fixed(
        body: *const u8,
        body_len: usize,
        widths: *const u16,
        widths_len: usize,
        max_records: usize,
        cost: *mut [u64; 3],
    ) -> u32;
    pub fn netflow_preflight_ipfix_fixed(
        body: *const u8,
        body_len: usize,
        widths: *const u16,
        widths_len: usize,
        max_records: usize,
        cost: *mut [u64; 3],
    ) -> u32;
    pub fn netflow_preflight_ipfix_variable(
        body: *const u8,
        body_len: usize,
        widths: *const u16,
        widths_len: usize,
        max_records: usize,
        cost: *mut [u64; 3],
    ) -> u32;
}

// The cache lives in words and bytes. Values are written beside a 0 only. No TTL where `has_ttl`
// is 0.
unsafe extern "C" {
    pub safe fn netflow_pending_validate_config(
        words_len: usize,
        bytes_len: usize,
        max_pending_flows: usize,
        max_entries_per_template: usize,
        max_entry_size_bytes: usize,
        max_total_bytes: usize,
    ) -> u32;
    pub fn netflow_pending_open(
        words: *mut u64,
        words_len: usize,
        bytes: *const u8,
        bytes_len: usize,
        max_pending_flows: usize,
        max_entries_per_template: usize,
        max_entry_size_bytes: usize,
        max_total_bytes: usize,
        has_ttl: u32,
        ttl: u64,
    ) -> u32;
    pub fn netflow_pending_cache(
        words: *mut u64,
        words_len: usize,
        bytes: *mut u8,
        bytes_len: usize,
        id: u16,
        body: *const u8,
        body_len: usize,
        clock: u64,
    ) -> u32;
    pub fn netflow_pending_drain(
        words: *mut u64,
        words_len: usize,
        bytes: *const u8,
        bytes_len: usize,
        id: u16,
        clock: u64,
        handed_out: *mut u64,
    ) -> u32;
    pub fn netflow_pending_restore_replay_suffix(
        words: *mut u64,
        words_len: usize,
        bytes: *const u8,
        bytes_len: usize,
        id: u16,
        count: usize,
    ) -> u32;
    pub fn netflow_pending_resize(
        words: *mut u64,
        words_len: usize,
        bytes: *mut u8,
        bytes_len: usize,
        max_pending_flows: usize,
        max_entries_per_template: usize,
        max_entry_size_bytes: usize,
        max_total_bytes: usize,
        has_ttl: u32,
        ttl: u64,
        dropped: *mut u64,
    ) -> u32;
    pub fn netflow_pending_clear(
        words: *mut u64,
        words_len: usize,
        bytes: *const u8,
        bytes_len: usize,
    ) -> u32;
    pub fn netflow_pending_would_accept(
        words: *const u64,
        words_len: usize,
        bytes: *const u8,
        bytes_len: usize,
        id: u16,
        length: usize,
        clock: u64,
        accepts: *mut u64,
    ) -> u32;
    pub fn netflow_pending_figures(
        words: *const u64,
        words_len: usize,
        bytes: *const u8,
        bytes_len: usize,
        figures: *mut [u64; 6],
    ) -> u32;
    pub fn netflow_pending_place_handed_out(
        words: *const u64,
        words_len: usize,
        bytes: *const u8,
        bytes_len: usize,
        number: usize,
        place: *mut [u64; 2],
    ) -> u32;
}

// A budget is seven words. An excess is written beside 23 and 24, the other values beside a 0.
unsafe extern "C" {
    pub fn netflow_budget_limits(
        max_records: u64,
        max_values: u64,
        max_payload_bytes: u64,
        limits: *mut [u64; 3],
    ) -> u32;
    pub fn netflow_budget_new(
        budget: *mut [u64; 7],
        max_values: u64,
        max_payload_bytes: u64,
    ) -> u32;
    pub fn netflow_budget_reset(budget: *mut [u64; 7]) -> u32;
    pub fn netflow_budget_set_limits(
        budget: *mut [u64; 7],
        max_values: u64,
        max_payload_bytes: u64,
    ) -> u32;
    pub fn netflow_budget_reserve(
        budget: *mut [u64; 7],
        values: u64,
        payload_bytes: u64,
        excess: *mut [u64; 3],
    ) -> u32;
    pub fn netflow_budget_rollback(budget: *mut [u64; 7], values: u64, payload_bytes: u64) -> u32;
    pub fn netflow_budget_remaining(budget: *const [u64; 7], counts: *mut [u64; 2]) -> u32;
    pub fn netflow_budget_is_exceeded(budget: *const [u64; 7], answer: *mut [u64; 1]) -> u32;
    pub fn netflow_budget_take_exceeded(budget: *mut [u64; 7], excess: *mut [u64; 3]) -> u32;
    pub fn netflow_budget_validate_pending_full_budget(
        budget: *const [u64; 7],
        number: u32,
        cost: *const [u64; 3],
    ) -> u32;
    pub fn netflow_budget_validate_pending_remaining(
        budget: *const [u64; 7],
        number: u32,
        cost: *const [u64; 3],
    ) -> u32;
    pub fn netflow_budget_materialize_pending(
        budget: *mut [u64; 7],
        number: u32,
        cost: *const [u64; 3],
        success: u32,
        reported: *const [u64; 3],
        remainder: *mut [u64; 1],
    ) -> u32;
}
