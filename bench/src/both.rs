//! One measured call on both sides, each time on the same content.

use crate::by_hand::{self, Runs};
use crate::counts::counting;
use crate::held::Held;
use crate::lent::Lent;
use crate::port;
use crate::shape::{Call, NEW_ID, NOW, Shape, id_of};
use crate::sums;
use crate::timing::time_of;
use oracle::original::{Cache, Limits};
use std::hint::black_box;

/// Nanoseconds and calls.
type Spent = (f64, u64);

/// Queries that are timed at once: as many as look at so many bodies, but not more than these.
const LOOKED_AT: usize = 16_384;
const OUR_QUERIES: usize = 32;
const RUST_QUERIES: usize = 64;

const HEADER_WORDS: usize = 64;
const ENTRY_WORDS: usize = 4;

pub struct Both {
    pub shape: Shape,
    pub lent: Lent,
    pub held: Held,
    body: Vec<u8>,
}

impl Both {
    pub fn new(shape: Shape) -> Self {
        let body = vec![3; shape.offered];
        Self { shape, lent: Lent::new(&shape), held: Held::new(&shape), body }
    }

    fn halved(&self) -> Limits {
        let limits = self.shape.limits;
        Limits { templates: (limits.templates / 2).max(1), ..limits }
    }

    /// All bodies are looked at.
    fn queries(&self) -> u64 {
        self.queries_of(self.shape.bodies(), OUR_QUERIES)
    }

    /// With a TTL the bodies of one template are looked at; for the figures, all templates.
    fn rust_queries(&self) -> u64 {
        let looked_at = match (self.shape.call, self.shape.limits.ttl) {
            (Call::WouldAccept, None) => 1,
            (Call::WouldAccept, Some(_)) => self.shape.per,
            _ => self.shape.templates,
        };
        self.queries_of(looked_at, RUST_QUERIES)
    }

    fn queries_of(&self, looked_at: usize, most: usize) -> u64 {
        if counting() { 1 } else { (LOOKED_AT / looked_at).clamp(1, most) as u64 }
    }

    /// The proved library's call.
    pub fn ours(&mut self) -> Spent {
        let newest = id_of(self.shape.newest());
        match self.shape.call {
            Call::WouldAccept | Call::Figures | Call::PlaceHandedOut => return self.our_query(),
            _ => self.lent.restore(),
        }
        let halved = self.halved();
        let limits = self.shape.limits;
        let per = self.shape.count_of(self.shape.newest());
        let Lent { words, bytes, .. } = &mut self.lent;
        let body = black_box(&self.body[..]);
        let (time, number) = match self.shape.call {
            Call::Open => time_of(|| port::open(words, bytes, limits)),
            Call::OfferHeld
            | Call::OfferFull
            | Call::OfferLong
            | Call::OfferExpired
            | Call::OfferEvictsBytes
            | Call::OfferPacks => time_of(|| port::offer(words, bytes, newest, body, NOW)),
            Call::OfferNew | Call::OfferEvicts | Call::OfferPrunes => {
                time_of(|| port::offer(words, bytes, NEW_ID, body, NOW))
            }
            Call::Drain | Call::DrainExpired => {
                let (time, (number, handed)) = time_of(|| port::drain(words, bytes, newest, NOW));
                let live = if self.shape.call == Call::Drain { per } else { 0 };
                assert_eq!(handed, live as u64);
                (time, number)
            }
            Call::PutBack => time_of(|| port::put_back(words, bytes, newest, per)),
            Call::Resize => {
                let (time, (number, dropped)) = time_of(|| port::resize(words, bytes, limits));
                assert_eq!(dropped, 0);
                (time, number)
            }
            Call::ResizeHalves => {
                let (time, (number, _)) = time_of(|| port::resize(words, bytes, halved));
                (time, number)
            }
            Call::Clear => time_of(|| port::clear(words, bytes)),
            Call::WouldAccept | Call::Figures | Call::PlaceHandedOut => unreachable!(),
        };
        let expected = match self.shape.call {
            Call::OfferFull => 20,
            Call::OfferLong => 6,
            _ => 0,
        };
        assert_eq!(number, expected, "{:?}", self.shape);
        (time, 1)
    }

    fn our_query(&mut self) -> Spent {
        let id = id_of(self.shape.newest());
        let length = self.shape.length;
        let last = self.shape.count_of(self.shape.newest()) - 1;
        let queries = self.queries();
        let (words, bytes) = (&self.lent.words[..], &self.lent.bytes[..]);
        // Warm, as after a call.
        assert_eq!(port::figures(words, bytes).0, 0);
        let (time, number) = match self.shape.call {
            Call::WouldAccept => time_of(|| {
                let query = || port::would_accept(black_box(words), bytes, id, length, NOW);
                (0..queries).map(|_| query().0).sum::<u32>()
            }),
            Call::Figures => time_of(|| {
                let query = || port::figures(black_box(words), bytes);
                (0..queries).map(|_| query().0).sum::<u32>()
            }),
            _ => time_of(|| {
                let query = || port::place_handed_out(black_box(words), bytes, last);
                (0..queries).map(|_| query().0).sum::<u32>()
            }),
        };
        assert_eq!(number, 0);
        (time, queries)
    }

    /// The original's call. What it needs to be as before is done outside of the timed part.
    pub fn rust(&mut self) -> Spent {
        match self.shape.call {
            Call::WouldAccept | Call::Figures | Call::PlaceHandedOut => self.rust_query(),
            Call::Open => {
                let limits = self.shape.limits;
                (time_of(|| Cache::open(black_box(limits))).0, 1)
            }
            Call::OfferHeld
            | Call::OfferFull
            | Call::OfferLong
            | Call::OfferExpired
            | Call::OfferPacks
            | Call::OfferNew
            | Call::OfferPrunes => self.rust_offer(),
            Call::OfferEvicts | Call::OfferEvictsBytes => self.rust_eviction(),
            Call::Drain | Call::DrainExpired | Call::PutBack => self.rust_drain(),
            Call::Resize | Call::ResizeHalves | Call::Clear => self.rust_removal(),
        }
    }

    fn rust_query(&mut self) -> Spent {
        let (id, length) = (self.held.newest(), self.shape.length);
        let queries = self.rust_queries();
        let cache = &self.held.cache;
        let (time, _) = match self.shape.call {
            Call::WouldAccept => time_of(|| {
                for _ in 0..queries {
                    black_box(cache.would_accept(black_box(id), length, NOW));
                }
            }),
            _ => time_of(|| {
                for _ in 0..queries {
                    black_box(black_box(cache).figures());
                }
            }),
        };
        (time, queries)
    }

    /// The original takes the body itself, so its copy is in the timed part.
    fn rust_offer(&mut self) -> Spent {
        let id = match self.shape.call {
            Call::OfferNew | Call::OfferPrunes => NEW_ID,
            _ => self.held.newest(),
        };
        let body = black_box(&self.body[..]);
        let cache = &mut self.held.cache;
        let (time, refused) = time_of(|| cache.offer(id, body.to_vec(), NOW));
        let refuses = matches!(self.shape.call, Call::OfferFull | Call::OfferLong);
        assert_eq!(refused.is_some(), refuses);
        match self.shape.call {
            Call::OfferFull | Call::OfferLong => (),
            Call::OfferNew => assert_eq!(cache.drain(id, NOW).len(), 1),
            Call::OfferPrunes => {
                assert_eq!(cache.drain(id, NOW).len(), 1);
                let shape = self.shape;
                self.held.fill(&shape);
            }
            Call::OfferExpired => self.held.put_expired(),
            _ => self.held.take_back(id),
        }
        (time, 1)
    }

    /// Afterwards as many templates of as many bodies are held, under other ids or in another
    /// order.
    fn rust_eviction(&mut self) -> Spent {
        let by_bytes = self.shape.call == Call::OfferEvictsBytes;
        let id = if by_bytes { self.held.newest() } else { self.held.next_id() };
        let body = black_box(&self.body[..]);
        let cache = &mut self.held.cache;
        let (time, refused) = time_of(|| cache.offer(id, body.to_vec(), NOW));
        assert!(refused.is_none());
        let evicted = self.held.order.pop_front().expect("there is a template");
        if by_bytes {
            self.held.order.pop_back();
            self.held.add(evicted);
            self.held.take_back(id);
            self.held.order.push_back(id);
        } else {
            self.held.cache.drain(id, NOW);
            self.held.add(id);
        }
        (time, 1)
    }

    fn rust_drain(&mut self) -> Spent {
        let id = self.held.newest();
        let cache = &mut self.held.cache;
        if self.shape.call == Call::DrainExpired {
            let (time, bodies) = time_of(|| cache.drain(id, NOW));
            assert!(bodies.is_empty());
            self.held.put_expired();
            return (time, 1);
        }
        if self.shape.call == Call::Drain {
            let (time, bodies) = time_of(|| cache.drain(id, NOW));
            cache.restore_replay_suffix(id, bodies);
            return (time, 1);
        }
        let bodies = self.held.handed.take().expect("a template is handed out");
        let (time, ()) = time_of(|| cache.restore_replay_suffix(id, bodies));
        self.held.handed = Some(cache.drain(id, NOW));
        (time, 1)
    }

    fn rust_removal(&mut self) -> Spent {
        let limits = self.shape.limits;
        let halved = self.halved();
        let cache = &mut self.held.cache;
        match self.shape.call {
            Call::Resize => {
                let (time, dropped) = time_of(|| cache.resize(limits));
                assert_eq!(dropped, Some(0));
                (time, 1)
            }
            Call::ResizeHalves => {
                let (time, _) = time_of(|| cache.resize(halved));
                cache.resize(limits).expect("legal limits");
                for _ in halved.templates..limits.templates {
                    let id = self.held.order.pop_front().expect("there is a template");
                    self.held.add(id);
                }
                (time, 1)
            }
            _ => {
                let (time, ()) = time_of(|| cache.clear());
                let shape = self.shape;
                self.held.fill(&shape);
                (time, 1)
            }
        }
    }

    /// A sum over the live words, which are as warm as they are for the call.
    pub fn scalar(&mut self) -> Spent {
        self.sum(sums::scalar)
    }

    pub fn vectorised(&mut self) -> Spent {
        self.sum(sums::vectorised)
    }

    fn sum(&mut self, sum: fn(&[u64]) -> u64) -> Spent {
        let query =
            matches!(self.shape.call, Call::WouldAccept | Call::Figures | Call::PlaceHandedOut);
        let times = if query { self.queries() } else { 1 };
        if query {
            port::figures(&self.lent.words, &self.lent.bytes);
        } else {
            self.lent.restore();
        }
        let (front, records) = self.lent.live();
        let (time, _) = time_of(|| {
            for _ in 0..times {
                black_box(sum(black_box(front)).wrapping_add(sum(black_box(records))));
            }
        });
        (time, times)
    }

    /// What an offer moves which evicts or packs.
    pub fn runs(&mut self) -> Runs {
        self.lent.restore();
        Runs::of(&self.shape, &self.lent.words)
    }

    /// The same bytes from the same places to the same places, by one `memmove` for each run.
    pub fn memmoves(&mut self, runs: &Runs) -> Spent {
        self.lent.restore();
        let words = black_box(&mut self.lent.words);
        let bytes = black_box(&mut self.lent.bytes);
        (time_of(|| runs.make(words, bytes)).0, 1)
    }

    /// The entries and bodies brought to the same places by hand.
    pub fn by_hand(&mut self) -> Spent {
        self.lent.restore();
        let shape = self.shape;
        let Lent { words, bytes, .. } = &mut self.lent;
        (time_of(|| by_hand::offer(&shape, words, bytes)).0, 1)
    }

    /// The areas as they are before a call, with bodies that differ.
    fn restore_with_content(&mut self) {
        self.lent.restore();
        for (at, byte) in self.lent.bytes.iter_mut().enumerate() {
            *byte = (at * 31 % 251) as u8;
        }
    }

    /// By hand, and by the moves alone, the bodies are left that the library leaves, and the
    /// entries: but for those that it adds, and by the moves alone for the places of bodies.
    pub fn check_by_hand(&mut self, runs: &Runs) {
        self.restore_with_content();
        self.ours();
        let (our_words, our_bytes) = (self.lent.words.clone(), self.lent.bytes.clone());
        self.restore_with_content();
        let Lent { words, bytes, .. } = &mut self.lent;
        let kept = by_hand::offer(&self.shape, words, bytes);
        let end = HEADER_WORDS + ENTRY_WORDS * kept;
        assert_eq!(our_words[10], kept as u64 + 1, "{:?}", self.shape);
        assert!(our_words[HEADER_WORDS..end] == words[HEADER_WORDS..end], "{:?}", self.shape);
        let moves_bodies = self.shape.call != Call::OfferEvicts;
        let moved = if moves_bodies { kept * self.shape.length } else { 0 };
        assert!(our_bytes[..moved] == self.lent.bytes[..moved], "{:?}", self.shape);
        self.restore_with_content();
        runs.make(&mut self.lent.words, &mut self.lent.bytes);
        assert!(our_bytes[..moved] == self.lent.bytes[..moved], "{:?}", self.shape);
        let labels = |words: &[u64]| -> Vec<u64> {
            words[HEADER_WORDS..end].iter().step_by(ENTRY_WORDS).copied().collect()
        };
        assert!(labels(&our_words) == labels(&self.lent.words), "{:?}", self.shape);
    }
}
