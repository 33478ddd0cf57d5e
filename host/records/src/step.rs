//! A step, many pairs of many hulls in one call: the records of its lists, and how they are read.

use crate::{Contact, FeaturePair, HullSize, Outcome, Point, SatCache, Vec3, MAX_MANIFOLD_POINTS};

/// How many places of its list a hull, a pair, a transform, a cache and the two halves of an answer take.
pub const HULL_WORDS: usize = 6;
pub const PAIR_WORDS: usize = 2;
pub const TRANSFORM_FLOATS: usize = 7;
pub const CACHE_WORDS: usize = 2;
pub const PAIR_FLOATS: usize = 19;
pub const PAIR_BYTES: usize = 24;

/// Where each stands in the bytes of a pair; byte 3 is 0.
pub const STATUS_BYTE: usize = 0;
pub const COUNT_BYTE: usize = 1;
pub const RETIRED_BYTE: usize = 2;
pub const TAG_BYTES: usize = 4;
pub const PLACE_BYTES: usize = 20;

/// A hull of a step: where its numbers and its links begin in the step's lists, its unit and its sizes. How many there are
/// follows from the sizes.
#[derive(Debug, Clone, Copy, PartialEq, Eq)]
#[repr(C)]
pub struct HullRecord {
    pub numbers: u32,
    pub links: u32,
    pub unit: u32,
    pub vertices: u32,
    pub half_edges: u32,
    pub faces: u32,
}

impl HullRecord {
    pub fn size(self) -> HullSize {
        let [unit, vertices, half_edges, faces] =
            [self.unit, self.vertices, self.half_edges, self.faces].map(|count| count as usize);
        HullSize {
            unit,
            vertices,
            half_edges,
            faces,
        }
    }

    /// The words that the library is lent.
    pub fn words(self) -> [u32; HULL_WORDS] {
        let HullRecord {
            numbers,
            links,
            unit,
            vertices,
            half_edges,
            faces,
        } = self;
        [numbers, links, unit, vertices, half_edges, faces]
    }

    pub fn of_words(words: [u32; HULL_WORDS]) -> HullRecord {
        let [numbers, links, unit, vertices, half_edges, faces] = words;
        HullRecord {
            numbers,
            links,
            unit,
            vertices,
            half_edges,
            faces,
        }
    }
}

/// A pair of a step: the numbers of its hulls, in the order in which the step's hulls stand.
#[derive(Debug, Clone, Copy, PartialEq, Eq, Hash)]
#[repr(C)]
pub struct Pair {
    pub a: u32,
    pub b: u32,
}

/// What a step returns beside what it writes.
#[derive(Debug, Clone, Copy, PartialEq, Eq)]
#[repr(C)]
#[must_use]
pub struct Step {
    /// 0, or 21 where a list has no room for the hulls and pairs.
    pub status: u8,
    /// Those of all pairs together; 0 with a refusal.
    pub points: usize,
}

impl SatCache {
    /// The two words of a step's list: those that its bytes make on x86-64.
    pub fn words(self) -> [u32; CACHE_WORDS] {
        let bytes = [self.kind, self.index_a, self.index_b, self.hit];
        [self.separation, u32::from_le_bytes(bytes)]
    }

    pub fn of_words([separation, rest]: [u32; CACHE_WORDS]) -> SatCache {
        let [kind, index_a, index_b, hit] = rest.to_le_bytes();
        SatCache {
            separation,
            kind,
            index_a,
            index_b,
            hit,
        }
    }
}

impl Outcome {
    /// What a step wrote of a pair.
    #[inline]
    pub fn of_step(floats: &[f32; PAIR_FLOATS], bytes: &[u8; PAIR_BYTES]) -> Outcome {
        let vector = |from: usize| Vec3 {
            x: floats[from],
            y: floats[from + 1],
            z: floats[from + 2],
        };
        let mut points = [Point::UNUSED; MAX_MANIFOLD_POINTS];
        for (i, point) in points.iter_mut().enumerate() {
            let (number, tag) = (3 + 4 * i, TAG_BYTES + 4 * i);
            *point = Point {
                position: vector(number),
                separation: floats[number + 3],
                pair: FeaturePair {
                    owner1: bytes[tag],
                    index1: bytes[tag + 1],
                    owner2: bytes[tag + 2],
                    index2: bytes[tag + 3],
                },
                place: bytes[PLACE_BYTES + i],
            };
        }
        Outcome {
            status: bytes[STATUS_BYTE],
            contact: Contact {
                points,
                normal: vector(0),
                count: bytes[COUNT_BYTE],
            },
            retired: bytes[RETIRED_BYTE],
        }
    }

    /// The same the other way: what a step writes of a pair with this outcome.
    pub fn in_step(&self) -> ([f32; PAIR_FLOATS], [u8; PAIR_BYTES]) {
        let Contact {
            points,
            normal,
            count,
        } = self.contact;
        let (mut floats, mut bytes) = ([0.0; PAIR_FLOATS], [0; PAIR_BYTES]);
        floats[..3].copy_from_slice(&[normal.x, normal.y, normal.z]);
        bytes[..3].copy_from_slice(&[self.status, count, self.retired]);
        for (i, point) in points.iter().enumerate() {
            let (Vec3 { x, y, z }, pair) = (point.position, point.pair);
            floats[3 + 4 * i..][..4].copy_from_slice(&[x, y, z, point.separation]);
            let tag = [pair.owner1, pair.index1, pair.owner2, pair.index2];
            bytes[TAG_BYTES + 4 * i..][..4].copy_from_slice(&tag);
            bytes[PLACE_BYTES + i] = point.place;
        }
        (floats, bytes)
    }
}
