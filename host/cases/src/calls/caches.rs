//! Caches of every sort.

use crate::Numbers;
use records::{HullSize, SatCache};

/// The types that name what is there: a face of A, a face of B, a pair of edges.
pub const NAMING: [u8; 3] = [2, 3, 4];

fn byte(n: &mut Numbers) -> u8 {
    n.word() as u8
}

/// Anything in every field; most types are below ten.
pub fn any(n: &mut Numbers) -> SatCache {
    let kind = match n.below(4) {
        0 => byte(n),
        _ => n.below(10) as u8,
    };
    SatCache {
        separation: separation(n),
        kind,
        index_a: byte(n),
        index_b: byte(n),
        hit: [0, 1, byte(n)][n.below(3)],
    }
}

/// Any bits, a float of any sort, or one of many NaNs.
fn separation(n: &mut Numbers) -> u32 {
    match n.below(3) {
        0 => n.word() as u32,
        1 => n.float().to_bits(),
        _ => n.word() as u32 | 0x7f80_0001,
    }
}

/// Any type but those that name what is there, or one of those with numbers in range.
pub fn in_range(a: HullSize, b: HullSize, n: &mut Numbers) -> SatCache {
    let cache = any(n);
    if NAMING.contains(&cache.kind) {
        return naming(cache.kind, a, b, n);
    }
    cache
}

/// Of a type that names what is there, with any numbers in range.
pub fn naming(kind: u8, a: HullSize, b: HullSize, n: &mut Numbers) -> SatCache {
    let (index_a, index_b) = match kind {
        2 => (n.below(a.faces.clamp(1, 256)) as u8, byte(n)),
        3 => (byte(n), n.below(b.faces.clamp(1, 256)) as u8),
        _ => (edge(a, n), edge(b, n)),
    };
    SatCache {
        kind,
        index_a,
        index_b,
        ..any(n)
    }
}

/// The first half-edge of any edge.
fn edge(size: HullSize, n: &mut Numbers) -> u8 {
    2 * n.below((size.half_edges / 2).clamp(1, 128)) as u8
}

/// Of a type that names what is there, with a number out of range.
pub fn out_of_range(a: HullSize, b: HullSize, n: &mut Numbers) -> SatCache {
    let kind = NAMING[n.below(3)];
    let mut cache = naming(kind, a, b, n);
    let in_a = kind == 2 || (kind == 4 && n.below(2) == 0);
    let (size, index) = if in_a {
        (a, &mut cache.index_a)
    } else {
        (b, &mut cache.index_b)
    };
    let limit = if kind == 4 {
        size.half_edges
    } else {
        size.faces
    };
    *index = match kind {
        4 if limit > 254 || n.below(2) == 0 => *index | 1,
        _ => beyond(limit, n),
    };
    cache
}

/// The limit, the last byte, or one between.
fn beyond(limit: usize, n: &mut Numbers) -> u8 {
    let limit = limit.min(255);
    [limit, 255, limit + n.below(256 - limit)][n.below(3)] as u8
}
