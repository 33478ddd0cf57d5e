//! Calls of every kind on the largest hulls there are: what a call needs of the stack is seen with them. The stored frames
//! have small ones.

use crate::sorts::calls::{frame, given, on_pair};
use crate::Frame;
use cases::calls::{broken, caches};
use cases::pairs::{placed, turned_or_not, Pair};
use cases::shapes::breaks::{break_rule, RULES};
use cases::shapes::kinds::{KindOfRadius, LARGEST, MOST_FACES, PYRAMIDS, SHELLS};
use cases::shapes::{Padding, Shape};
use cases::Numbers;
use records::{HullSize, SatCache, Unit};

const SEED: u64 = 1;

/// How many pairs there are of each two kinds, how many calls on hulls with padding outside of them, and how many in which a
/// cut puts out a 65th corner.
const PAIRS: usize = 3;
const PADDED: usize = 100;
const OVERFULL: usize = 4;

/// How many calls are looked through for one that is refused by 6.
const TRIES: usize = 10_000;

/// Every two kinds against each other in any unit, with cached axes, a retired type and caches carried from call to call; then
/// each rule broken by A and by B, unlike units, the transform's rule broken, a cache out of range, a small capacity; each kind
/// that is not one shell; padding that may win the search, and cuts that put out too many corners.
pub fn frames() -> Vec<Frame> {
    let mut n = Numbers::new(SEED);
    let mut frames = Vec::new();
    for a in LARGEST {
        for b in LARGEST {
            for _ in 0..PAIRS {
                let unit = n.unit();
                let pair = any_pair([a, b], &mut n).in_unit(unit);
                frames.extend(on_pair(pair, &mut n));
            }
        }
        frames.extend(refused(a, &mut n));
    }
    frames.extend(shells(&mut n));
    frames.extend((0..PADDED).map(|_| padded(&mut n)));
    frames.extend((0..OVERFULL).map(|_| overfull(&mut n)));
    frames
}

fn shape((_, solid): KindOfRadius, n: &mut Numbers) -> Shape {
    let radius = n.between(0.5, 5.0);
    turned_or_not(solid(radius, n), n)
}

fn any_pair([a, b]: [KindOfRadius; 2], n: &mut Numbers) -> Pair {
    let (a, b) = (shape(a, n), shape(b, n));
    placed(a, b, n)
}

fn refused(kind: KindOfRadius, n: &mut Numbers) -> Vec<Frame> {
    let good = |n: &mut Numbers| given(any_pair([kind; 2], n), SatCache::EMPTY);
    let mut frames = Vec::new();
    for side in 0..2 {
        let mut given = good(n);
        *given.side(side) = one_vertex_more();
        frames.push(frame(&given));
        for rule in 2..=RULES {
            let mut given = good(n);
            break_rule(rule, given.side(side), n);
            frames.push(frame(&given));
        }
    }
    let mut unlike = good(n);
    unlike.b = unlike.b.in_unit(Unit::Millimetres);
    frames.push(frame(&unlike));
    let mut moved = good(n);
    moved.transform = broken::transform(true, Unit::Metres, n);
    let mut cached = good(n);
    cached.cache = caches::out_of_range(cached.a.size, cached.b.size, n);
    let mut small = good(n);
    small.capacity = 3;
    small.cache.kind = 7;
    frames.extend([&moved, &cached, &small].map(frame));
    let mut retired = good(n);
    retired.cache.kind = 6;
    break_rule(2, &mut retired.a, n);
    frames.push(frame(&retired));
    frames
}

/// Each kind as A and as B, beside one that has the most faces.
fn shells(n: &mut Numbers) -> Vec<Frame> {
    let mut frames = Vec::new();
    for kind in &SHELLS {
        for side in 0..2 {
            let mut given = given(any_pair([MOST_FACES; 2], n), SatCache::EMPTY);
            *given.side(side) = Shape::any(&(kind.solid)(n), n);
            frames.push(frame(&given));
        }
    }
    frames
}

/// Lists of zeros, as long as a hull's with one vertex more than any may have.
fn one_vertex_more() -> Shape {
    let size = HullSize {
        unit: 1,
        vertices: 129,
        half_edges: 256,
        faces: 128,
    };
    Shape {
        numbers: vec![0.0; size.numbers().expect("small")],
        links: vec![0; size.links().expect("small")],
        size,
    }
}

/// Of two kinds whose vertices are no multiple of four, with one point far outside in the lanes past the last.
fn padded(n: &mut Numbers) -> Frame {
    let odd = [MOST_FACES, PYRAMIDS];
    let kinds = [odd[n.below(2)], odd[n.below(2)]];
    let mut pair = any_pair(kinds, n);
    for shape in [&mut pair.a, &mut pair.b] {
        let point = [0.0; 3].map(|_: f32| 9.0 * n.fraction());
        shape.pad(Padding::Point(point));
    }
    frame(&given(pair, SatCache::EMPTY))
}

/// The first of many that is refused by 6.
fn overfull(n: &mut Numbers) -> Frame {
    let any = |n: &mut Numbers| {
        let kind = LARGEST[n.below(LARGEST.len())];
        given(any_pair([kind, PYRAMIDS], n), SatCache::EMPTY)
    };
    let found = (0..TRIES)
        .map(|_| any(n))
        .find(|given| given.call().wanted().outcome.status == 6);
    frame(&found.expect("one of so many puts out a 65th corner"))
}
