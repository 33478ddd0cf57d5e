//! Corners and candidates in the records of the Rust text.

use cases::convert::{our_pair, ours, pair, vector};
use oracle::open;
use probes::ClipVertex;

pub fn corners(list: &[ClipVertex]) -> Vec<open::ClipVertex> {
    list.iter()
        .map(|v| open::ClipVertex {
            position: vector(v.position),
            separation: v.separation,
            pair: pair(v.pair),
        })
        .collect()
}

pub fn our_corner(v: &open::ClipVertex) -> ClipVertex {
    ClipVertex {
        position: ours(v.position),
        separation: v.separation,
        pair: our_pair(v.pair),
    }
}

/// Whether both have one tag and one position, bit for bit: only their places tell them apart.
pub fn twins(a: &ClipVertex, b: &ClipVertex) -> bool {
    let bits = |v: &ClipVertex| [v.position.x, v.position.y, v.position.z].map(f32::to_bits);
    a.pair == b.pair && bits(a) == bits(b)
}

/// Each with its place in the list.
pub fn points(list: &[ClipVertex]) -> Vec<open::LocalManifoldPoint> {
    list.iter()
        .zip(0..)
        .map(|(v, place)| open::LocalManifoldPoint {
            point: vector(v.position),
            separation: v.separation,
            pair: pair(v.pair),
            triangle_index: place,
        })
        .collect()
}
