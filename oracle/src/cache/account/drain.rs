//! Drain, put-back, and reading what was handed out.

use super::{Account, Answer, Branch, Template};
use crate::numbers::{DONE, NO_CHANCE, NOT_HANDED_OUT};

impl Account {
    /// "Drain removes the id, drops its expired bodies, hands out the rest oldest first."
    pub(super) fn drain(&mut self, id: u16, clock: u64) -> u64 {
        self.end_chance();
        let Some(at) = self.position(id) else {
            self.took(Branch::DrainUnknown);
            return 0;
        };
        let bodies = self.held.remove(at).bodies;
        let before = bodies.len();
        let mut live = Vec::new();
        for body in bodies {
            if !self.is_expired(&body, clock) {
                live.push(body);
            }
        }
        self.drop_bodies((before - live.len()) as u64);
        self.took(match live.len() {
            0 => Branch::DrainNone,
            n if n == before => Branch::DrainAll,
            _ => Branch::DrainSome,
        });
        self.fates.handed_out += live.len() as u64;
        self.chance = Template { id, bodies: live };
        self.last_drain = self.chance.clone();
        self.called_since_drain = false;
        self.chance.bodies.len() as u64
    }

    /// "Put-back restores the last n of them as the newest template, counters unchanged; n = 0
    /// succeeds for any id, chance or not, and does nothing."
    pub(super) fn put_back(&mut self, id: u16, n: u64) -> u32 {
        let handed = self.chance.bodies.len() as u64;
        if n == 0 {
            self.took(Branch::PutBackNothing);
            if handed > 0 {
                self.took(Branch::PutBackNothingInChance);
            }
            return DONE;
        }
        if handed == 0 || id != self.chance.id || n > handed {
            self.took(match handed {
                0 if self.would_be_last_drain(id, n) => Branch::PutBackEnded,
                0 => Branch::PutBackNoChance,
                _ if id != self.chance.id => Branch::PutBackOther,
                _ => Branch::PutBackTooMany,
            });
            return NO_CHANCE;
        }
        self.took(if n == handed { Branch::PutBackAll } else { Branch::PutBackPart });
        if self.called_since_drain {
            self.took(Branch::PutBackLater);
        }
        let bodies = self.chance.bodies.split_off((handed - n) as usize);
        self.end_chance();
        self.fates.handed_out -= n;
        self.held.push(Template { id, bodies });
        DONE
    }

    pub(super) fn read(&mut self, number: u64) -> Answer {
        let handed = self.chance.bodies.len() as u64;
        if number >= handed {
            self.took(Branch::ReadNone);
            return Answer::number(NOT_HANDED_OUT);
        }
        self.took(Branch::ReadBody);
        Answer::value(self.chance.bodies[number as usize].length)
    }

    /// Whether this is a put-back of the last drain that handed out anything.
    fn would_be_last_drain(&self, id: u16, n: u64) -> bool {
        id == self.last_drain.id && n <= self.last_drain.bodies.len() as u64
    }
}
