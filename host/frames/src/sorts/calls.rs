//! Calls on good hulls.

use crate::codec::call_frame;
use crate::Frame;
use cases::calls::caches::{self, naming, NAMING};
use cases::calls::Given;
use cases::pairs::{placed, turned_or_not, Pair};
use cases::shapes::kinds::{any_log, COMPACT};
use cases::shapes::solids::{bipyramid, block, frustum, pyramid, Solid};
use cases::shapes::{Padding, Shape};
use cases::sorts::any_kind;
use cases::{convert, Numbers};
#[cfg(rust_text)]
use records::Unit;
use records::{HullSize, SatCache};

/// What the pair's calls are given.
pub fn given(pair: Pair, cache: SatCache) -> Given {
    Given {
        capacity: 4,
        transform: convert::our_transform(pair.transform),
        a: pair.a,
        b: pair.b,
        cache,
    }
}

pub fn frame(given: &Given) -> Frame {
    Frame::Bytes(call_frame(&given.call()))
}

/// A small one: a cube, a wedge, a tetrahedron, an octahedron, or a log.
fn any_solid(n: &mut Numbers) -> Solid {
    let size = n.between(0.3, 2.0);
    match n.below(6) {
        0 => block([size; 3]),
        1 => block([1.0, size, 0.5]),
        2 => frustum(&[[0.0, 0.0], [size, 0.0], [0.0, size]], 1.0, 1.0),
        3 => pyramid(3, size, size),
        4 => bipyramid(4, size, size),
        _ => any_log(n),
    }
}

/// Two small hulls laid or set on each other, with a cache whose numbers are in range.
pub fn any_given(n: &mut Numbers) -> Given {
    let (a, b) = (any_solid(n), any_solid(n));
    let (a, b) = (Shape::any(&a, n), Shape::any(&b, n));
    let pair = placed(a, b, n);
    let cache = caches::in_range(pair.a.size, pair.b.size, n);
    given(pair, cache)
}

/// The frame of such a call.
pub fn any_frame(n: &mut Numbers) -> Vec<u8> {
    call_frame(&any_given(n).call())
}

/// A hull of this kind as A or as B in turn, laid or set on one of any kind.
pub fn pair_of_kind(turn: usize, kind: fn(&mut Numbers) -> Solid, n: &mut Numbers) -> Pair {
    let solid = kind(n);
    let (own, other) = (turned_or_not(solid, n), any_kind(n));
    if turn.is_multiple_of(2) {
        placed(own, other, n)
    } else {
        placed(other, own, n)
    }
}

/// Twelve calls: cached axes, a retired type, caches carried from call to call.
#[cfg(rust_text)]
pub fn on_pair(pair: Pair, n: &mut Numbers) -> Vec<Frame> {
    let mut frames = Vec::new();
    let mut ask = |call: &cases::calls::Call| {
        frames.push(Frame::Bytes(call_frame(call)));
        call.wanted()
    };
    cases::calls::series::Series::new(pair, &mut ask).twelve(n);
    frames
}

/// One call with any cache.
#[cfg(not(rust_text))]
pub fn on_pair(pair: Pair, n: &mut Numbers) -> Vec<Frame> {
    vec![frame(&given(pair, caches::any(n)))]
}

/// A pair of a settled stack in this unit through frames of small movements, each with the cache of the one before.
#[cfg(rust_text)]
pub fn settled(unit: Unit, n: &mut Numbers) -> Vec<Frame> {
    use cases::pairs::moved;
    use cases::sorts::settled;

    const FRAMES: usize = 24;
    /// In metres and in radians, at most.
    const STEP: f32 = 3e-4;

    let mut given = given(settled(n).in_unit(unit), SatCache::EMPTY);
    let mut frames = Vec::new();
    for _ in 0..FRAMES {
        frames.push(frame(&given));
        given.cache = given.call().wanted().cache;
        let there = convert::transform(given.transform);
        given.transform = convert::our_transform(moved(there, STEP, unit, n));
    }
    frames
}

/// About 4, negative, and at both ends.
pub fn capacities(turn: usize, n: &mut Numbers) -> Vec<Frame> {
    let all = [
        3,
        4,
        5,
        2,
        1,
        0,
        -1,
        -4,
        i32::MIN,
        i32::MAX,
        0x0400_0000,
        0x80,
        -128,
    ];
    let mut given = any_given(n);
    given.capacity = all[turn % all.len()];
    if n.below(4) == 0 {
        given.capacity = n.word() as i32;
    }
    vec![frame(&given)]
}

/// Each type in turn with any numbers, and each number in turn with the types that name a face or a pair of edges.
pub fn every_type_and_index(turn: usize, n: &mut Numbers) -> Vec<Frame> {
    const A_TURN: usize = 8;
    let mut given = any_given(n);
    let (a, b) = (given.a.size, given.b.size);
    let cache = |place: usize, n: &mut Numbers| one_of_all(place, a, b, n);
    let mut frames = Vec::new();
    for place in turn * A_TURN..(turn + 1) * A_TURN {
        given.cache = cache(place, n);
        frames.push(frame(&given));
    }
    frames
}

/// By its place: 256 types, and 256 numbers of A and of B for each type that names something.
fn one_of_all(place: usize, a: HullSize, b: HullSize, n: &mut Numbers) -> SatCache {
    let (byte, which) = ((place / 7 % 256) as u8, place % 7);
    if which == 0 {
        let cache = caches::any(n);
        return SatCache {
            kind: byte,
            ..cache
        };
    }
    let (kind, of_b) = (NAMING[(which - 1) / 2], which % 2 == 0);
    let cache = naming(kind, a, b, n);
    if of_b {
        SatCache {
            index_b: byte,
            ..cache
        }
    } else {
        SatCache {
            index_a: byte,
            ..cache
        }
    }
}

/// Hulls with lanes past the last vertex, which hold one point, zeros or anything.
pub fn padding(_: usize, n: &mut Numbers) -> Vec<Frame> {
    let mut given = any_given(n);
    let solids = [
        pyramid(4, 1.0, 1.0),
        bipyramid(3, 1.0, 1.0),
        bipyramid(4, 1.0, 1.0),
    ];
    for side in 0..2 {
        let mut shape = Shape::any(&solids[n.below(3)], n);
        let point = [0.0; 3].map(|_: f32| 3.0 * n.fraction());
        shape.pad(match n.below(3) {
            0 => Padding::Zeros,
            1 => Padding::Point(point),
            _ => Padding::Any(n),
        });
        *given.side(side) = shape;
    }
    given.cache = caches::in_range(given.a.size, given.b.size, n);
    vec![frame(&given)]
}

/// One hull or both about 4000 from the origin on each axis, and placed by the vertices.
pub fn far(_: usize, n: &mut Numbers) -> Vec<Frame> {
    let solid = |n: &mut Numbers| COMPACT[n.below(COMPACT.len())].1(n);
    let (a, b) = (solid(n).far(n), solid(n));
    let b = if n.below(2) == 0 { b.far(n) } else { b };
    let (a, b) = (Shape::any(&a, n), Shape::any(&b, n));
    let pair = placed(a, b, n);
    let cache = caches::in_range(pair.a.size, pair.b.size, n);
    vec![frame(&given(pair, cache))]
}
