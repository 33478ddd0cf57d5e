//! Where B lies beside A.

use crate::inputs::{self, rounded};
use crate::pairs::{after, normal, spin, turning, vertex, Pair};
use crate::shapes::solids::frame;
use crate::shapes::{Link, Shape};
use crate::{convert, Numbers};
use oracle::math_functions::*;
use std::f32::consts::{FRAC_1_SQRT_2, TAU};

/// How an edge crosses an edge.
pub enum Spin {
    Any,
    /// By this angle from parallel.
    By(f32),
}

/// An edge of each.
pub fn any_edges(a: &Shape, b: &Shape, n: &mut Numbers) -> [usize; 2] {
    [a, b].map(|shape| 2 * n.below(shape.size.half_edges / 2))
}

/// An edge of B across an edge of A, the middle directions of their faces opposite, a little deep or a little apart.
pub fn edge_on_edge(
    a: Shape,
    b: Shape,
    [edge, other]: [usize; 2],
    crossing: Spin,
    n: &mut Numbers,
) -> Pair {
    let (out, down) = (between_faces(&a, edge), neg(between_faces(&b, other)));
    let facing = turning(down, out);
    let by = match crossing {
        Spin::Any => TAU * n.fraction(),
        Spin::By(angle) => {
            let along = normalize(arm(&a, edge));
            let theirs = rotate_vector(facing, normalize(arm(&b, other)));
            dot(cross(theirs, along), out).atan2(dot(theirs, along)) + angle
        }
    };
    let q = after(spin(out, by), facing);
    let gap = [0.0, -0.005, n.fraction() * 0.05, n.fraction() * 0.2][n.below(4)];
    let place = mul_add(on_edge(&a, edge, n), gap, out);
    let p = sub(place, rotate_vector(q, on_edge(&b, other, n)));
    let transform = Transform { p, q };
    Pair { a, b, transform }
}

/// B not turned, and at this edge of A that edge of B which looks most towards it.
pub fn facing_edge(a: Shape, b: Shape, edge: usize, n: &mut Numbers) -> Pair {
    let out = between_faces(&a, edge);
    let height = |other: &usize| dot(between_faces(&b, *other), out);
    let others = (0..b.size.half_edges).step_by(2);
    let other = others.min_by(|e, f| height(e).total_cmp(&height(f)));
    let there = on_edge(&b, other.expect("a hull has edges"), n);
    let transform = Transform {
        p: sub(on_edge(&a, edge, n), there),
        q: Quat {
            v: VEC3_ZERO,
            s: 1.0,
        },
    };
    Pair { a, b, transform }
}

/// About 0.005, or smaller, either way.
pub fn near_tolerance(n: &mut Numbers) -> f32 {
    let angle = match n.below(6) {
        0 => 0.0,
        1 => 0.005,
        2 => 0.005 * (1.0 + 1e-5 * n.fraction()),
        3 => 0.005 * (1.0 + 0.01 * n.fraction()),
        4 => 0.001 * n.fraction(),
        _ => 0.02 * n.fraction(),
    };
    [angle, -angle][n.below(2)]
}

/// The direction between the normals of an edge's two faces.
fn between_faces(shape: &Shape, edge: usize) -> Vec3 {
    let [first, second] = [edge, edge + 1].map(|e| normal(shape, shape.get(e, Link::Face)));
    let sum = add(first, second);
    if length_squared(sum) < 1e-3 {
        return first;
    }
    normalize(sum)
}

pub fn arm(shape: &Shape, edge: usize) -> Vec3 {
    let [from, to] = ends(shape, edge);
    sub(to, from)
}

fn ends(shape: &Shape, edge: usize) -> [Vec3; 2] {
    [edge, edge + 1].map(|e| vertex(shape, shape.get(e, Link::Origin)))
}

fn on_edge(shape: &Shape, edge: usize, n: &mut Numbers) -> Vec3 {
    let [from, to] = ends(shape, edge);
    lerp(from, to, n.between(0.1, 0.9) as f32)
}

/// Turned anyhow, and no farther than the hulls reach.
pub fn anyhow(a: Shape, b: Shape, n: &mut Numbers) -> Pair {
    let reach = |shape: &Shape| shape.numbers[..6].iter().fold(0f32, |r, x| r.max(x.abs()));
    let far = (reach(&a) + reach(&b)) * n.between(0.0, 1.2) as f32;
    let transform = Transform {
        p: mul_sv(far, convert::vector(rounded(frame(n)[0]))),
        q: convert::rotation(inputs::rotation(n)),
    };
    Pair { a, b, transform }
}

/// The same with a quaternion as long or as short as is accepted, one time in four.
pub fn stretched_turn(mut pair: Pair, n: &mut Numbers) -> Pair {
    if n.below(4) == 0 {
        let Quat { v, s } = pair.transform.q;
        let by = n.between(0.9955, 1.0045) as f32;
        pair.transform.q = Quat {
            v: mul_sv(by, v),
            s: by * s,
        };
    }
    pair
}

/// None, a half turn or a quarter turn about an axis.
pub fn quarter_turn(n: &mut Numbers) -> Quat {
    let (sine, cosine) = match n.below(4) {
        0 | 1 => (0.0, 1.0),
        2 => (1.0, 0.0),
        _ => (FRAC_1_SQRT_2, FRAC_1_SQRT_2),
    };
    let mut axis = [0.0; 3];
    axis[n.below(3)] = [sine, -sine][n.below(2)];
    let [x, y, z] = axis;
    Quat {
        v: Vec3 { x, y, z },
        s: cosine,
    }
}

/// Straight or by a half turn, at about the distance where two of this half size touch.
pub fn about_origin(a: Shape, b: Shape, half: f32, n: &mut Numbers) -> Pair {
    let q = loop {
        let q = quarter_turn(n);
        if q.s == 0.0 || q.s == 1.0 {
            break q;
        }
    };
    let mut part = || [0.0, half, 2.0 * half, half * n.fraction(), 2.0 * half][n.below(5)];
    let (x, y, z) = (part(), part(), part());
    let transform = Transform {
        p: Vec3 { x, y, z },
        q,
    };
    Pair { a, b, transform }
}

/// One to four away: that way, the other way, or any way.
pub fn towards(there: Vec3, n: &mut Numbers) -> Vec3 {
    let way = match n.below(4) {
        0 | 1 => normalize(there),
        2 => neg(normalize(there)),
        _ => convert::vector(rounded(frame(n)[0])),
    };
    mul_sv(n.between(1.0, 4.0) as f32, way)
}
