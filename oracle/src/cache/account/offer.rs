//! The offer, and the question before it.

use super::{Account, Body, Branch, Template};
use crate::numbers::{DONE, STILL_OVER, TEMPLATE_FULL, TOO_LONG};

impl Account {
    /// "An offer (`cache`) goes so".
    pub(super) fn offer(&mut self, id: u16, length: u64, clock: u64) -> u32 {
        let body = Body { offer: self.offers, length, clock };
        self.offers += 1;
        // 1. Size test (6).
        if length > self.limits.entry {
            self.took(Branch::OfferTooLong);
            return self.refuse(TOO_LONG);
        }
        self.end_chance();
        let held_before = self.bodies();
        // 2. While total plus length exceeds `max_total_bytes`, evict the least recent template
        // whole, one drop per body (21 if none).
        let was_held = self.position(id).is_some();
        while self.bytes() + length > self.limits.total {
            if self.held.is_empty() {
                self.took(Branch::OfferStillOver);
                return self.refuse(STILL_OVER);
            }
            self.evict_least_recent();
            self.took(Branch::OfferEvictsForBytes);
        }
        if was_held && self.position(id).is_none() {
            self.took(Branch::OfferEvictsItself);
        }
        if held_before > 0 && self.held.is_empty() {
            self.took(Branch::OfferEvictsAll);
        }
        // 3. Drop the expired bodies of this id; an emptied template goes.
        let (dropped, emptied) = self.prune(clock, |template| template == id);
        if dropped > 0 {
            self.took(if emptied > 0 { Branch::OfferEmpties } else { Branch::OfferPrunes });
        }
        if let Some(at) = self.position(id) {
            // 4. If the id is held: 20 when full, without promotion; else append and promote.
            if self.held[at].bodies.len() as u64 >= self.limits.bodies {
                self.took(Branch::OfferFull);
                if self.bodies() < held_before {
                    self.took(Branch::OfferFullAfterDrops);
                }
                return self.refuse(TEMPLATE_FULL);
            }
            let is_newest = at + 1 == self.held.len();
            self.took(if is_newest { Branch::OfferAppendsToNewest } else { Branch::OfferPromotes });
            let mut template = self.held.remove(at);
            template.bodies.push(body);
            self.held.push(template);
        } else {
            // 5. If not held and the templates are at `max_pending_flows`: drop all expired
            // bodies everywhere, emptied templates too, then if still full evict the least
            // recent. Add the id as newest.
            if self.at_template_limit() {
                self.make_room(clock);
            } else {
                self.took(Branch::OfferAdds);
            }
            self.held.push(Template { id, bodies: vec![body] });
        }
        if length == 0 {
            self.took(Branch::OfferOfNothing);
        }
        if self.bytes() == self.limits.total {
            self.took(Branch::OfferFillsTotal);
        }
        // 6. `pending_cached` rises by one.
        self.cached = self.cached.saturating_add(1);
        DONE
    }

    fn make_room(&mut self, clock: u64) {
        let (dropped, emptied) = self.prune(clock, |_| true);
        if dropped > 0 {
            self.took(Branch::OfferPrunesAll);
        }
        if emptied > 0 {
            self.took(Branch::OfferEmptiesOthers);
        }
        if self.at_template_limit() {
            self.evict_least_recent();
            self.took(Branch::OfferEvictsForRoom);
            if dropped > 0 {
                self.took(Branch::OfferPrunesAndEvicts);
            }
        }
    }

    fn refuse(&mut self, number: u32) -> u32 {
        self.refused += 1;
        self.dropped = self.dropped.saturating_add(1);
        number
    }

    /// "`would_accept` changes nothing".
    pub(super) fn would_accept(&mut self, id: u16, length: u64, clock: u64) -> bool {
        if length > self.limits.entry || length > self.limits.total {
            self.took(Branch::NoLength);
            return false;
        }
        let Some(at) = self.position(id) else {
            self.took(Branch::YesUnknown);
            return true;
        };
        let bodies = self.held[at].bodies.clone();
        let unexpired = bodies.iter().filter(|body| !self.is_expired(body, clock)).count() as u64;
        let yes = unexpired < self.limits.bodies;
        self.took(match yes {
            true if bodies.len() as u64 >= self.limits.bodies => Branch::YesExpired,
            true => Branch::YesHeld,
            false => Branch::NoCap,
        });
        yes
    }
}
