//! What stays with a pair of hulls from call to call.

use std::fmt;

/// The axis that the last call found. Its separation is a bit pattern, since a NaN's bits are kept.
#[derive(Debug, Clone, Copy, PartialEq, Eq, Default)]
#[repr(C)]
pub struct SatCache {
    pub separation: u32,
    pub kind: u8,
    pub index_a: u8,
    pub index_b: u8,
    pub hit: u8,
}

impl SatCache {
    /// Of type 0, as before the first call.
    pub const EMPTY: SatCache = SatCache {
        separation: 0,
        kind: 0,
        index_a: 0,
        index_b: 0,
        hit: 0,
    };

    /// The types that are retired: they asked for manual searches, and saved runs still hold them. They act as type 0, and a
    /// call that reads one says so ([`Outcome::retired_type_read`](crate::Outcome::retired_type_read)).
    pub const RETIRED_TYPES: [u8; 3] = [6, 7, 8];

    /// The separation along the axis, in the unit of the hulls; below zero where they overlap.
    #[inline]
    pub fn separation(&self) -> f32 {
        f32::from_bits(self.separation)
    }

    /// Which axis it is, with the numbers that go with it.
    #[inline]
    pub fn kind(&self) -> CacheKind {
        let SatCache {
            index_a, index_b, ..
        } = *self;
        match self.kind {
            2 => CacheKind::FaceA { face: index_a },
            3 => CacheKind::FaceB { face: index_b },
            4 => CacheKind::Edges { index_a, index_b },
            number if self.has_retired_type() => CacheKind::Retired { number },
            _ => CacheKind::Nothing,
        }
    }

    /// Whether its type is one of [`SatCache::RETIRED_TYPES`]. No call leaves such a type but where it keeps the cache as it
    /// was: a refused one, and one with a capacity below 4.
    #[inline]
    pub fn has_retired_type(&self) -> bool {
        SatCache::RETIRED_TYPES.contains(&self.kind)
    }

    /// Whether the last call was served by the axis of the one before.
    #[inline]
    pub fn hit(&self) -> bool {
        self.hit != 0
    }
}

/// What a cache makes the next call do first.
#[derive(Debug, Clone, Copy, PartialEq, Eq)]
pub enum CacheKind {
    /// No axis: the next call searches all of them.
    Nothing,
    /// A face of A.
    FaceA { face: u8 },
    /// A face of B.
    FaceB { face: u8 },
    /// A pair of edges, each by the even one of its two half-edges.
    Edges { index_a: u8, index_b: u8 },
    /// No axis either: one of [`SatCache::RETIRED_TYPES`].
    Retired { number: u8 },
}

impl fmt::Display for CacheKind {
    fn fmt(&self, f: &mut fmt::Formatter) -> fmt::Result {
        match self {
            CacheKind::Nothing => write!(f, "no axis"),
            CacheKind::FaceA { face } => write!(f, "face {face} of A"),
            CacheKind::FaceB { face } => write!(f, "face {face} of B"),
            CacheKind::Edges { index_a, index_b } => {
                write!(f, "edge {index_a} of A across edge {index_b} of B")
            }
            CacheKind::Retired { number } => write!(f, "no axis (type {number} is retired)"),
        }
    }
}
