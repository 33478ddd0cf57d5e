//! Pairs for the call alone.

use super::Work;
use crate::inputs::rounded;
use crate::pairs::{self, on_block, placed, Pair};
use crate::shapes::kinds::{BOXES, CUBES, TETRAHEDRA, WEDGES};
use crate::shapes::solids::{bands, block, bridged, frame, pyramid, tipped};
use crate::shapes::Shape;
use crate::sorts::places::{any_edges, anyhow, edge_on_edge, Spin};
use crate::sorts::{padded, Sort};
use crate::{convert, Numbers};
use oracle::math_functions::*;
use records::Unit;
use std::cmp::Ordering;
use std::f32::consts::FRAC_PI_2;

/// Beside those that the searches go through.
pub const MORE: [Sort; 6] = [
    ("at most 30 from the origin, 64-gons often", |unit, n| {
        pairs::any(n).in_unit(unit)
    }),
    ("padding outside, anyhow", |unit, n| {
        let (a, b) = (padded(n), padded(n));
        anyhow(a, b, n).in_unit(unit)
    }),
    ("two level blocks with a bridge between them", |unit, n| {
        let (a, b) = (two_level(n), two_level(n));
        placed(a, b, n).in_unit(unit)
    }),
    ("a face of 62 to 64 corners over an edge", |unit, n| {
        over_an_edge(n).in_unit(unit)
    }),
    ("normals with tiny parts", tiny_parts),
    ("an edge pair above the face by the slop", level),
];

/// A sort for the places of candidates.
pub const BANDS: Sort = (
    "bands round a corner, a face that is not convex",
    |unit, n| banded(n).in_unit(unit),
);

/// A block, and on its top a hull whose base is two to four bands round the top's corner, so that as many candidates carry one
/// tag, often at one position. The block may be A or B. Some faces of the other hull look inward and keep the two apart; where
/// its planes lie far out, they do not, and the block's top is the best face.
fn banded(n: &mut Numbers) -> Pair {
    let half = [1.0, n.between(0.3, 2.0)][n.below(2)];
    let count = 2 * (2 + n.below(3));
    // In the middle of each step the distances to the corner are often whole parts of it.
    let even = n.below(2) == 0;
    let ways: Vec<[f64; 3]> = (0..count)
        .map(|way| {
            let mut inward = || {
                let part = if even { 0.5 } else { n.between(0.1, 0.9) };
                (way as f64 + part) / count as f64
            };
            [inward(), 2.0 - inward(), 2.0 - inward()].map(|x| half * x)
        })
        .collect();
    let block = Shape::any(&block([half, half, 0.5]), n);
    let solid = tipped(&bands(-half, &ways), n.between(0.3, 1.0));
    let mut round = Shape::any(&solid, n);
    let out = [0.0, 4.0, 4.0][n.below(3)];
    for face in 0..round.size.faces {
        let offset = round.plane(face) + 3;
        round.numbers[offset] += out;
    }
    let quarter = FRAC_PI_2 * n.below(4) as f32;
    let angle = [0.0, quarter, quarter + 0.05 * n.fraction()][n.below(3)];
    let mut aside = || [0.0, 0.0, 0.05 * n.fraction()][n.below(3)];
    let (x, y) = (aside(), aside());
    let z = 0.5 + [0.0, -0.001, 0.01 * n.fraction()][n.below(3)];
    on_block(block, round, Vec3 { x, y, z }, angle, n)
}

/// Turned with its bridge: which of the two blocks' corners lies lowest is left to rounding.
fn two_level(n: &mut Numbers) -> Shape {
    let half = [0.0; 3].map(|_: f64| n.between(0.2, 1.0));
    Shape::any(&bridged(half, n.between(0.5, 3.5)).turned(n), n)
}

/// A round face on a block's, shifted so that none, one or some of its corners go over the block's edge. The block may
/// be A or B; the planes of the other lie a little lower or higher than its corners do, so that either side wins.
fn over_an_edge(n: &mut Numbers) -> Pair {
    let sides = 62 + n.below(3);
    let top = Shape::any(&block([1.0, 5.0, 1.0]), n);
    let mut round = Shape::any(&pyramid(sides, 1.0, 1.0), n);
    let aside = [0.0, 0.001, -0.001, 0.01 * n.fraction()][n.below(4)];
    for face in 0..round.size.faces {
        let offset = round.plane(face) + 3;
        round.numbers[offset] += aside;
    }
    let shift = [0.0, 0.003, 0.02, 0.05 * n.fraction()][n.below(4)];
    let deep = [0.0, 0.001, 0.01, 0.02 * n.fraction()][n.below(4)];
    let angle = [0.0, 0.01 * n.fraction()][n.below(2)];
    let p = Vec3 {
        x: shift,
        y: 0.0,
        z: 1.0 - deep,
    };
    on_block(top, round, p, angle, n)
}

/// Blocks not turned, whose normals have parts so small that a product of two of them is zero.
pub fn tiny_parts(unit: Unit, n: &mut Numbers) -> Pair {
    let half = [0.25, 0.5, 1.0, 2.0][n.below(4)];
    let mut block = || {
        let mut shape = Shape::any(&block([half; 3]), n);
        for face in 0..shape.size.faces {
            let from = shape.plane(face);
            for part in &mut shape.numbers[from..from + 3] {
                if part.abs() < 0.5 {
                    let tiny = [0.0, 1e-30, 1e-23, 0.02, 0.02][n.below(5)];
                    *part = [tiny, -tiny][n.below(2)];
                }
            }
        }
        shape
    };
    let (a, b) = (block(), block());
    let half = half as f32;
    let mut part = || [0.0, half, 2.0 * half, 2.1 * half][n.below(4)];
    let (x, y, z) = (part(), part(), part());
    let p = Vec3 { x, y, z };
    let transform = Transform {
        p,
        q: Quat {
            v: VEC3_ZERO,
            s: 1.0,
        },
    };
    Pair { a, b, transform }.in_unit(unit)
}

/// An edge pair whose separation is that of the face contact and the slop, or a float or two beside it.
pub fn level(unit: Unit, n: &mut Numbers) -> Pair {
    loop {
        let mut small = || {
            let (_, solid) = [CUBES, BOXES, WEDGES, TETRAHEDRA][n.below(4)];
            Shape::any(&solid(n), n)
        };
        let (a, b) = (small(), small());
        let edges = any_edges(&a, &b, n);
        let pair = edge_on_edge(a, b, edges, Spin::Any, n).in_unit(unit);
        if let Some(transform) = levelled(&mut Work::of_pair(&pair), n) {
            return Pair { transform, ..pair };
        }
    }
}

/// Where the two are level on some way from here, or where they change places.
fn levelled(work: &mut Work, n: &mut Numbers) -> Option<Transform> {
    let (start, scale) = (work.transform, work.unit.scale());
    let way = convert::vector(rounded(frame(n)[0]));
    let mut at = |by: f32, nudge: Vec3| {
        let p = add(mul_add(start.p, by, way), nudge);
        work.transform = Transform { p, ..start };
        Some((work.transform, edge_beside_face(work)?))
    };
    let (_, first) = at(0.0, VEC3_ZERO)?;
    let (mut low, mut high) = (0.0, 0.005 * scale);
    while at(high, VEC3_ZERO)?.1 == first {
        (low, high) = (high, 1.5 * high);
        if high > 0.2 * scale {
            return None;
        }
    }
    for _ in 0..24 {
        let middle = (low + high) / 2.0;
        match at(middle, VEC3_ZERO)? {
            (transform, Ordering::Equal) => return Some(transform),
            (_, order) if order == first => low = middle,
            _ => high = middle,
        }
    }
    let mut near = at(low, VEC3_ZERO)?;
    for _ in 0..40 {
        if near.1 == Ordering::Equal {
            break;
        }
        let [x, y, z] = [0; 3].map(|_| 3e-7 * scale * n.fraction());
        near = at(low, Vec3 { x, y, z })?;
    }
    Some(near.0)
}

/// The edge pair's separation beside that of the face contact and the slop, where there are both.
fn edge_beside_face(work: &Work) -> Option<Ordering> {
    let query = work.search_to_end();
    let least = work.face_separation(&query)? + work.unit.slop();
    if query.edge.index_a < 0 {
        return None;
    }
    query.edge.separation.partial_cmp(&least)
}
