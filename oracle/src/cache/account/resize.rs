//! Opening's and resize's limits, resize and clear.

use super::{Account, Answer, Areas, Branch, Limits};
use crate::numbers::{AREAS_TOO_SMALL, BAD_BODIES, BAD_ENTRY_SIZE, BAD_TEMPLATES, BAD_TOTAL, DONE};

impl Account {
    /// "Resize validates, evicts least recent templates down to the new count, drops bodies over
    /// the new entry size, then oldest bodies beyond the new cap, then least recent templates
    /// until the total fits; emptied templates go; it answers the number dropped and adds it to
    /// `pending_dropped`."
    pub(super) fn resize(&mut self, limits: &Limits) -> Answer {
        let number = limits_number(limits, self.areas);
        if number != DONE {
            self.took(Branch::ResizeRefused);
            return Answer::number(number);
        }
        self.limits = *limits;
        self.end_chance();
        let before = self.bodies();
        while self.held.len() as u64 > limits.templates {
            self.evict_least_recent();
            self.took(Branch::ResizeEvicts);
        }
        self.drop_where(Branch::ResizeDropsLong, |bodies| {
            bodies.retain(|body| body.length <= limits.entry);
        });
        self.drop_where(Branch::ResizeDropsOldest, |bodies| {
            let beyond = (bodies.len() as u64).saturating_sub(limits.bodies);
            bodies.drain(..beyond as usize);
        });
        if self.remove_emptied() > 0 {
            self.took(Branch::ResizeEmpties);
        }
        while self.bytes() > limits.total {
            self.evict_least_recent();
            self.took(Branch::ResizeEvictsForBytes);
        }
        let dropped = before - self.bodies();
        if dropped == 0 {
            self.took(Branch::ResizeDropsNothing);
        }
        Answer::value(dropped)
    }

    /// "Clear empties and leaves the counters."
    pub(super) fn clear(&mut self) {
        let held = self.bodies();
        self.took(if held == 0 { Branch::ClearNothing } else { Branch::ClearBodies });
        self.fates.cleared += held;
        self.held.clear();
        self.end_chance();
    }
}

/// "1 to 5 in order".
pub fn limits_number(limits: &Limits, areas: Areas) -> u32 {
    match *limits {
        Limits { templates: 0, .. } => BAD_TEMPLATES,
        Limits { bodies: 0, .. } => BAD_BODIES,
        Limits { entry, .. } if entry == 0 || entry > 65_531 => BAD_ENTRY_SIZE,
        Limits { entry, total, .. } if total == 0 || total < entry => BAD_TOTAL,
        _ if !limits.fit(areas) => AREAS_TOO_SMALL,
        _ => DONE,
    }
}
