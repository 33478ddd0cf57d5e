//! How often each thing that a step can meet was met.

use super::wanted::{cache, hull, no_room, record, Written};
use super::Lists;
use cases::{met, one_in};
use records::{
    CACHE_WORDS, COUNT_BYTE, HULL_WORDS, PAIR_BYTES, PAIR_FLOATS, PAIR_WORDS, RETIRED_BYTE,
    STATUS_BYTE, TRANSFORM_FLOATS,
};
use std::collections::HashSet;

#[derive(Default)]
pub struct Met {
    steps: u64,
    carried: u64,
    /// Refused by 21: by the first list that is too short.
    short: [u64; 5],
    without_hulls: u64,
    without_pairs: u64,
    half_pairs: u64,
    part_hulls: u64,
    /// With places behind those that are written or read.
    longer: u64,
    hulls: u64,
    /// By the first broken rule.
    rules: [u64; 10],
    /// Lists that do not lie inside.
    outside: u64,
    /// Hulls with the lists of another, whole or in part.
    shared: u64,
    /// Hulls at which another rule stood than the one that is written.
    not_believed: u64,
    pairs: u64,
    untold: u64,
    statuses: [u64; 18],
    /// Pairs refused since the hull's number is none: A's, B's.
    no_hull: [u64; 2],
    /// Pairs whose hulls another pair of the step has too.
    again: u64,
    /// Accepted pairs by the type that they were given, those with a hit, marked ones, and by points.
    types: [u64; 5],
    hits: u64,
    marked: u64,
    points: [u64; 5],
}

impl Met {
    pub fn add(&mut self, given: &Lists, wanted: &Written, carried: bool) {
        let (hulls, pairs) = given.counts();
        self.steps += 1;
        self.carried += u64::from(carried);
        if no_room(given) {
            let room = [
                given.judged.len() < hulls,
                given.transforms.len() < TRANSFORM_FLOATS * pairs,
                given.caches.len() < CACHE_WORDS * pairs,
                given.floats.len() < PAIR_FLOATS * pairs,
                given.bytes.len() < PAIR_BYTES * pairs,
            ];
            let first = room.iter().position(|&short| short).expect("one is short");
            self.short[first] += 1;
            return;
        }
        self.without_hulls += u64::from(hulls == 0);
        self.without_pairs += u64::from(pairs == 0);
        self.half_pairs += u64::from(given.pairs.len() % PAIR_WORDS != 0);
        self.part_hulls += u64::from(given.hulls.len() % HULL_WORDS != 0);
        let longer = given.judged.len() > hulls && given.caches.len() > CACHE_WORDS * pairs;
        self.longer += u64::from(longer);
        let mut parts = HashSet::new();
        for number in 0..hulls {
            let rule = wanted.judged[number];
            self.hulls += 1;
            self.rules[usize::from(rule)] += 1;
            self.outside += u64::from(hull(given, number).is_none());
            self.shared += u64::from(!parts.insert(record(given, number).numbers));
            self.not_believed += u64::from(given.judged[number] != rule);
        }
        let mut named = HashSet::new();
        for pair in 0..pairs {
            self.pairs += 1;
            if !wanted.told[pair] {
                self.untold += 1;
                continue;
            }
            let bytes = &wanted.bytes[PAIR_BYTES * pair..][..PAIR_BYTES];
            let status = usize::from(bytes[STATUS_BYTE]);
            self.statuses[status] += 1;
            let [a, b] = given.pairs.as_chunks().0[pair].map(|number: u32| number as usize);
            match status {
                1 => self.no_hull[0] += u64::from(a >= hulls),
                2 => self.no_hull[1] += u64::from(b >= hulls),
                0 => {
                    let before = cache(given, pair);
                    let next = super::wanted::cache_of(&wanted.caches, pair);
                    let kind = match before.kind {
                        2..=4 => usize::from(before.kind) - 1,
                        _ if before.has_retired_type() => 4,
                        _ => 0,
                    };
                    self.types[kind] += 1;
                    self.hits += u64::from(next.hit());
                    self.marked += u64::from(bytes[RETIRED_BYTE]);
                    self.points[usize::from(bytes[COUNT_BYTE])] += 1;
                    self.again += u64::from(!named.insert(a) | !named.insert(b));
                }
                _ => {}
            }
        }
    }

    /// Prints all of it; whether each was met often enough in so many steps.
    pub fn report(&self, count: usize) -> bool {
        let text = u64::from(cfg!(rust_text));
        let few = one_in(500, count);
        let [judged, transforms, caches, floats, bytes] = self.short;
        println!("steps");
        let mut good = met(&[
            ("steps", self.steps, 1),
            (
                "with caches carried from the step before",
                self.carried,
                few,
            ),
            ("refused by 21: judged", judged, few),
            ("transforms", transforms, few),
            ("caches", caches, few),
            ("floats", floats, few),
            ("bytes", bytes, few),
            ("without hulls", self.without_hulls, few),
            ("without pairs", self.without_pairs, few),
            ("half a pair at the end", self.half_pairs, few),
            ("a part of a hull at the end", self.part_hulls, few),
            ("lists that are longer", self.longer, few),
        ]);
        println!("hulls of steps");
        let [good_hulls, h1, h2, h3, h4, h5, h6, h7, h8, h9] = self.rules;
        good &= met(&[
            ("judged", self.hulls, 1),
            ("good", good_hulls, few),
            ("H1", h1, few),
            ("H2", h2, few),
            ("H3", h3, few),
            ("H4", h4, few),
            ("H5", h5, few),
            ("H6", h6, few),
            ("H7", h7, few),
            ("H8", h8, few),
            ("H9", h9, few),
            ("lists outside", self.outside, few),
            ("lists that another hull has too", self.shared, few),
            ("another rule stood there", self.not_believed, few),
        ]);
        println!("pairs of steps");
        let of = |refusal: usize| self.statuses[refusal];
        let [no_a, no_b] = self.no_hull;
        good &= met(&[
            ("pairs", self.pairs, 1),
            ("accepted", of(0), text * few),
            ("refused by 1", of(1), few),
            ("of them no such hull", no_a, few),
            ("2", of(2), few),
            ("of them no such hull", no_b, few),
            ("17", of(17), few),
            ("3", of(3), few),
            ("4", of(4), few),
            ("5", of(5), text * one_in(2000, count)),
            ("6", of(6), text * one_in(2000, count)),
            ("left out for want of the text", self.untold, 0),
        ]);
        let [none, type_2, type_3, type_4, retired] = self.types;
        let [no_points, one, two, three, four] = self.points;
        good & met(&[
            ("accepted of no axis", none, text * few),
            ("type 2", type_2, text * few),
            ("type 3", type_3, text * few),
            ("type 4", type_4, text * few),
            ("retired", retired, text * few),
            ("hits", self.hits, text * few),
            ("marked", self.marked, text * few),
            ("hulls of another pair too", self.again, text * few),
            ("no points", no_points, text * few),
            ("one", one, text * few),
            ("two", two, text),
            ("three", three, text),
            ("four", four, text * few),
        ])
    }
}
