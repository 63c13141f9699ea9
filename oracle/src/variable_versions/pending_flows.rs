//! The original `pending_flows.rs`, then a way in to its private fields, which must stand in the
//! same module.

// The original's debug assertions, see checks.rs.
macro_rules! debug_assert {
    ($($argument:tt)*) => {
        if crate::checks::made() {
            assert!($($argument)*)
        }
    };
}

// Nothing names it where debug assertions are off.
#[allow(unused_macros)]
macro_rules! debug_assert_eq {
    ($($argument:tt)*) => {
        if crate::checks::made() {
            assert_eq!($($argument)*)
        }
    };
}

include!(concat!(env!("OUT_DIR"), "/pending_flows.rs"));

impl PendingFlowCache {
    pub(crate) fn config(&self) -> &PendingFlowsConfig {
        &self.config
    }

    pub(crate) fn total_bytes(&self) -> usize {
        self.total_bytes
    }

    /// Ids with their bodies oldest first, least recent id first.
    pub(crate) fn held(&self) -> impl Iterator<Item = (u16, &[PendingFlowEntry])> {
        self.cache.iter().rev().map(|(&id, entries)| (id, entries.as_slice()))
    }
}
