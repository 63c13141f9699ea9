//! Which ways the calls went.

use super::{Account, Branch, Call};
use crate::numbers::DONE;

impl Account {
    pub(super) fn took(&mut self, branch: Branch) {
        self.branches.insert(branch);
    }

    /// "Yes binds the offer; no does not."
    pub(super) fn note_asked(&mut self, call: &Call, number: u32, asked: Option<(Call, bool)>) {
        let Some((_, yes)) = asked.filter(|(offer, _)| offer == call) else {
            return;
        };
        assert!(number == DONE || !yes, "a yes, and then {number} for {call:?}");
        if number == DONE {
            self.took(if yes { Branch::OfferAfterYes } else { Branch::OfferAfterNo });
        }
    }

    pub(super) fn note_chance(&mut self, call: &Call, number: u32, had_chance: bool) {
        if !matches!(call, Call::Drain { .. }) {
            self.called_since_drain = true;
        }
        if !had_chance {
            return;
        }
        let (is_refused, has_chance) = (number != DONE, self.has_chance());
        let branch = match call {
            Call::Offer { .. } if has_chance => Branch::OfferKeepsChance,
            Call::Offer { .. } => Branch::OfferEndsChance,
            Call::Drain { .. } => Branch::DrainEndsChance,
            Call::Resize(_) if is_refused => Branch::ResizeKeepsChance,
            Call::Resize(_) => Branch::ResizeEndsChance,
            Call::Clear => Branch::ClearEndsChance,
            _ => return,
        };
        self.took(branch);
    }
}
