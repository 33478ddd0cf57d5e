//! The calls that are made on one pair of hulls, each handed to `ask`, which returns the answer that document 01 wants.

use super::aims::{aimed, move_to_speculative, near, of_full_search};
use super::caches::{any, naming, NAMING};
use super::{Answer, Call, Work};
use crate::pairs::{moved, Pair};
use crate::{convert, Numbers};
use records::{SatCache, Transform};

/// How far B is moved from call to call, in metres and in radians.
const STEPS: [f32; 8] = [0.0, 0.0, 1e-6, 1e-4, 1e-3, 4e-3, 0.02, 0.1];

/// Two hulls that calls are made on, and where B lies now.
pub struct Series<'a> {
    ask: &'a mut dyn FnMut(&Call) -> Answer,
    pair: Pair,
    transform: Transform,
}

impl<'a> Series<'a> {
    pub fn new(pair: Pair, ask: &'a mut dyn FnMut(&Call) -> Answer) -> Self {
        Series {
            ask,
            transform: convert::our_transform(pair.transform),
            pair,
        }
    }

    /// Twelve calls: cached axes, a retired type, and caches carried from call to call.
    pub fn twelve(&mut self, n: &mut Numbers) {
        self.cached(n);
        self.retired(n);
        self.warm(n);
    }

    fn call(&mut self, capacity: i32, cache: SatCache) -> Answer {
        (self.ask)(&Call {
            capacity,
            a: self.pair.a.lent(),
            b: self.pair.b.lent(),
            transform: self.transform,
            cache,
        })
    }

    fn step(&mut self, by: f32, n: &mut Numbers) {
        let there = convert::transform(self.transform);
        self.transform = convert::our_transform(moved(there, by, self.pair.unit(), n));
    }

    /// Caches that name what is there, the last with B at the speculative distance along its axis; and any cache.
    fn cached(&mut self, n: &mut Numbers) {
        let (a, b) = (self.pair.a.size, self.pair.b.size);
        let mut work = Work::of_pair(&self.pair);
        for _ in 0..4 {
            let cache = aimed(&work, a, b, n);
            self.call(4, cache);
        }
        self.call(4, any(n));
        let cache = aimed(&work, a, b, n);
        move_to_speculative(&mut work, cache, n);
        self.transform = convert::our_transform(work.transform);
        self.call(4, cache);
        self.transform = convert::our_transform(self.pair.transform);
    }

    /// A cache of a retired type, and a call that is handed the next one.
    fn retired(&mut self, n: &mut Numbers) {
        let kind = SatCache::RETIRED_TYPES[n.below(3)];
        let cache = SatCache { kind, ..any(n) };
        let next = self.call(4, cache).cache;
        self.step(STEPS[n.below(4)], n);
        self.call(4, next);
        self.transform = convert::our_transform(self.pair.transform);
    }

    /// A full search, and calls that are handed the cache of the one before, B a little moved each time.
    fn warm(&mut self, n: &mut Numbers) {
        let by = STEPS[n.below(STEPS.len())];
        let mut cache = of_full_search(n);
        for _ in 0..4 {
            cache = self.call([4, 5, i32::MAX][n.below(3)], cache).cache;
            self.step(by, n);
        }
    }

    /// Each type with any numbers, and each number with the types that name a face or a pair of edges.
    pub fn every_type_and_index(&mut self, n: &mut Numbers) {
        let (a, b) = (self.pair.a.size, self.pair.b.size);
        for byte in 0..=255 {
            let cache = any(n);
            self.call(
                4,
                SatCache {
                    kind: byte,
                    ..cache
                },
            );
            for kind in NAMING {
                let (index_a, index_b) = (byte, byte);
                let cache = naming(kind, a, b, n);
                self.call(4, SatCache { index_a, ..cache });
                self.call(4, SatCache { index_b, ..cache });
            }
        }
    }

    /// Each of these types with every index_a and every index_b, and with a capacity on either side of 4.
    pub fn with_every_index(&mut self, types: impl Iterator<Item = u8>, n: &mut Numbers) {
        for kind in types {
            let apart = n.word() as u8;
            for index_a in 0..=255u8 {
                let cache = SatCache {
                    kind,
                    index_a,
                    index_b: index_a.wrapping_add(apart),
                    ..any(n)
                };
                self.call(3, cache);
                self.call(4, cache);
            }
        }
    }

    /// With separations about zero.
    pub fn every_pair_of_edges(&mut self, n: &mut Numbers) {
        let (a, b) = (self.pair.a.size, self.pair.b.size);
        for index_a in (0..a.half_edges as u8).step_by(2) {
            for index_b in (0..b.half_edges as u8).step_by(2) {
                let cache = SatCache {
                    separation: near(0.0, self.pair.unit(), n),
                    kind: 4,
                    index_a,
                    index_b,
                    ..any(n)
                };
                self.call(4, cache);
            }
        }
    }
}
