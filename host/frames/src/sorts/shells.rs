//! Calls on hulls that are not one closed shell without a hole, and on some that are near them.

use super::calls::{any_given, frame, given};
use crate::Frame;
use cases::calls::broken::{hull, transform};
use cases::calls::{caches, Given};
use cases::pairs::placed;
use cases::shapes::breaks::shells::{shells_with_one_face, shells_with_one_vertex};
use cases::shapes::breaks::{break_rule, Break, RULES};
use cases::shapes::kinds::{Kind, BOXES, CUBES, SHELLS, TETRAHEDRA, WEDGES};
use cases::shapes::solids::{block, bridged, torus, Solid};
use cases::shapes::Shape;
use cases::Numbers;
use records::{SatCache, Unit};

/// How many turns the three sorts here take: the first for each kind as A and as B, the second for each hull or both beside
/// each set of other faults and once more, the third for each that is near as A and as B.
#[cfg(rust_text)]
pub const TURNS: [usize; 3] = [
    2 * SHELLS.len(),
    2 * DOZEN,
    2 * (NEAR.len() + SHARING.len()),
];

/// Of this kind, anywhere.
fn shape(kind: usize, n: &mut Numbers) -> Shape {
    let solid = (SHELLS[kind % SHELLS.len()].solid)(n);
    Shape::any(&solid.placed(10.0, n), n)
}

/// Each kind in turn, as A and then as B, and all else is good; any cache.
pub fn alone(turn: usize, n: &mut Numbers) -> Vec<Frame> {
    let mut given = any_given(n);
    *given.side(turn / SHELLS.len()) = shape(turn, n);
    given.capacity = enough(n);
    given.cache = caches::any(n);
    vec![frame(&given)]
}

/// Each of A, B and both with each set of a transform and a cache that break their rules.
const DOZEN: usize = 3 * 4;

/// Each kind as A, as B and as both, beside a transform, a cache or both that break their rules, or neither. In every second
/// dozen the other hull may break any rule but H1, with which a frame may have another length, and the capacity may be below
/// 4, where nothing is looked at.
pub fn beside(turn: usize, n: &mut Numbers) -> Vec<Frame> {
    let mut other = hull(false, Unit::Metres, n);
    let more = turn / DOZEN % 2 == 1;
    if more && n.below(2) == 0 {
        break_rule(2 + n.below(usize::from(RULES) - 1) as u8, &mut other, n);
    }
    let (a, b) = match turn % 3 {
        0 => (shape(turn, n), other),
        1 => (other, shape(turn, n)),
        _ => (shape(turn, n), shape(n.below(SHELLS.len()), n)),
    };
    let cache = if turn / 2 % 2 == 1 {
        caches::out_of_range(a.size, b.size, n)
    } else {
        caches::in_range(a.size, b.size, n)
    };
    let given = Given {
        capacity: if more && n.below(2) == 0 {
            [3, 1, 0, -1, i32::MIN][n.below(5)]
        } else {
            enough(n)
        },
        transform: transform(turn % 2 == 1, Unit::Metres, n),
        a,
        b,
        cache,
    };
    vec![frame(&given)]
}

fn enough(n: &mut Numbers) -> i32 {
    [4, 5, 100, i32::MAX][n.below(4)]
}

/// Good hulls: one shell each.
const NEAR: [Kind; 3] = [
    ("two boxes made one by a common face", |n| {
        let half = [0.0; 3].map(|_: f64| n.between(0.1, 5.0));
        block(half).doubled(n.below(6))
    }),
    ("a ring that is cut open", |n| {
        let outer = n.between(1.0, 5.0);
        let radii = [outer * n.between(0.2, 0.8), outer];
        cut_open(3 + n.below(14), radii, n.between(0.2, 5.0))
    }),
    ("two boxes and a bridge between them", |n| {
        let half = [0.0; 3].map(|_: f64| n.between(0.1, 5.0));
        bridged(half, n.between(0.1, 5.0))
    }),
];

/// Two shells that share a number: H7 and H6 are broken, which come first.
const SHARING: [Break; 2] = [shells_with_one_vertex, shells_with_one_face];

/// Each of these in turn, as A and then as B, numbered in any way.
pub fn near(turn: usize, n: &mut Numbers) -> Vec<Frame> {
    let kinds = NEAR.len() + SHARING.len();
    let (kind, side) = (turn % kinds, turn / kinds % 2);
    let simple = [CUBES, BOXES, WEDGES, TETRAHEDRA];
    let mut solids = [0; 2].map(|_| simple[n.below(simple.len())].1(n));
    if let Some((_, solid)) = NEAR.get(kind) {
        solids[side] = solid(n);
    }
    let [a, b] = solids.map(|solid| Shape::any(&solid, n));
    let mut given = given(placed(a, b, n), SatCache::EMPTY);
    if let Some(share) = kind.checked_sub(NEAR.len()).map(|kind| SHARING[kind]) {
        assert!(share(given.side(side), n), "there is room for two");
    }
    given.cache = match n.below(4) {
        0 => caches::any(n),
        _ => caches::in_range(given.a.size, given.b.size, n),
    };
    given.capacity = enough(n);
    vec![frame(&given)]
}

/// A torus without its first block: two faces close what is left.
fn cut_open(sides: usize, radii: [f64; 2], height: f64) -> Solid {
    let mut ring = torus(sides, radii, height);
    ring.faces.drain(..4);
    ring.faces.extend([vec![3, 2, 1, 0], vec![4, 5, 6, 7]]);
    ring
}
