//! Pairs of hulls about each other's surfaces.

use crate::shapes::kinds::COMPACT;
use crate::shapes::solids::{block, flat, frame, pyramid, split_pyramid, Solid};
use crate::shapes::{Link, Shape};
use crate::{convert, inputs, Numbers};
use oracle::math_functions::*;
use records::Unit;
use std::f32::consts::TAU;

#[derive(Debug)]
pub struct Pair {
    pub a: Shape,
    pub b: Shape,
    pub transform: Transform,
}

impl Pair {
    /// That of both hulls.
    pub fn unit(&self) -> Unit {
        self.a.unit()
    }

    /// The same pair, which is in metres, in this unit.
    pub fn in_unit(self, unit: Unit) -> Pair {
        self.measured(unit, unit.scale())
    }

    /// The same in this unit, with every length so many times as large.
    pub fn measured(self, unit: Unit, by: f32) -> Pair {
        let Transform { p, q } = self.transform;
        Pair {
            a: self.a.measured(unit, by),
            b: self.b.measured(unit, by),
            transform: Transform {
                p: mul_sv(by, p),
                q,
            },
        }
    }
}

/// A polygon with both its sides, or a pyramid: with a ring of 65 to 125 corners.
pub fn long_rings(n: &mut Numbers) -> Solid {
    let radius = n.between(0.5, 5.0);
    if n.below(2) == 0 {
        return flat(66 + n.below(61), radius);
    }
    let sides = 3 + n.below(61);
    let corners = 65 + n.below(64 - sides);
    split_pyramid(sides, corners, radius, n.between(0.2, 9.0))
}

/// The half-edges of a face, from its stored one.
pub fn ring(shape: &Shape, face: usize) -> Vec<usize> {
    let first = shape.links[shape.face_edge(face)].into();
    let mut ring = vec![first];
    loop {
        let next = shape.get(ring[ring.len() - 1], Link::Next);
        if next == first {
            return ring;
        }
        ring.push(next);
    }
}

pub fn vertex(shape: &Shape, number: usize) -> Vec3 {
    let [x, y, z] = shape.vertex(number);
    Vec3 { x, y, z }
}

pub fn normal(shape: &Shape, face: usize) -> Vec3 {
    let from = shape.plane(face);
    let [x, y, z] = [0, 1, 2].map(|i| shape.numbers[from + i]);
    Vec3 { x, y, z }
}

/// Often one of 64 corners, where a cut that takes one corner puts out a 65th.
fn solid(n: &mut Numbers) -> Solid {
    match n.below(16) {
        0 => long_rings(n),
        1..=4 => pyramid(64, 1.0, 1.0),
        5 => block([1.0, 5.0, 1.0]),
        _ => COMPACT[n.below(COMPACT.len())].1(n),
    }
}

/// Any two that are at most 30 from the origin, placed.
pub fn any(n: &mut Numbers) -> Pair {
    let mut shape = || {
        let solid = solid(n);
        turned_or_not(solid, n)
    };
    let (a, b) = (shape(), shape());
    placed(a, b, n)
}

/// The solid as it stands or turned, with whatever a record leaves open at random.
pub fn turned_or_not(solid: Solid, n: &mut Numbers) -> Shape {
    let solid = if n.below(2) == 0 {
        solid
    } else {
        solid.turned(n)
    };
    Shape::any(&solid, n)
}

/// A face laid on a face, straight or a little tilted; a corner set on a face; boxes side by side; or anyhow.
pub fn placed(a: Shape, b: Shape, n: &mut Numbers) -> Pair {
    let (face, other) = (any_face(&a, n), any_face(&b, n));
    let (up, down) = (normal(&a, face), neg(normal(&b, other)));
    let gap = [0.0, -0.001, n.fraction() * 0.03, n.fraction() * 0.1][n.below(4)];
    let place = mul_add(on_face(&a, face, n), gap, up);
    let laid = after(spin(up, TAU * n.fraction()), turning(down, up));
    let (q, carried) = match n.below(8) {
        0..=2 => (laid, on_face(&b, other, n)),
        3 => {
            let tilt = spin(normal(&b, 0), 0.02 * n.fraction());
            (after(tilt, laid), on_face(&b, other, n))
        }
        4 | 5 => {
            let q = convert::rotation(inputs::rotation(n));
            (q, deepest(&b, q, up))
        }
        6 => {
            let q = spin(up, 0.0);
            (q, deepest(&b, q, up))
        }
        _ => (convert::rotation(inputs::rotation(n)), vertex(&b, 0)),
    };
    let p = sub(place, rotate_vector(q, carried));
    Pair {
        a,
        b,
        transform: Transform { p, q },
    }
}

/// The block as A and the other on it, moved and turned about z, or the other way round.
pub fn on_block(block: Shape, other: Shape, p: Vec3, angle: f32, n: &mut Numbers) -> Pair {
    let axis = Vec3 {
        x: 0.0,
        y: 0.0,
        z: 1.0,
    };
    let transform = Transform {
        p,
        q: spin(axis, angle),
    };
    if n.below(2) == 0 {
        return Pair {
            a: block,
            b: other,
            transform,
        };
    }
    Pair {
        a: other,
        b: block,
        transform: invert_transform(transform),
    }
}

/// Any face, or one with the longest ring.
fn any_face(shape: &Shape, n: &mut Numbers) -> usize {
    let any = n.below(shape.size.faces);
    if n.below(3) == 0 {
        return any;
    }
    let longer = |best, face| {
        if ring(shape, face).len() > ring(shape, best).len() {
            face
        } else {
            best
        }
    };
    (0..shape.size.faces).fold(any, longer)
}

/// A point between three corners of a face, or the middle of all.
fn on_face(shape: &Shape, face: usize, n: &mut Numbers) -> Vec3 {
    let ring = ring(shape, face);
    let corner = |e| vertex(shape, shape.get(e, Link::Origin));
    if n.below(2) == 0 {
        let sum = ring.iter().map(|&e| corner(e)).reduce(add);
        return mul_sv(1.0 / ring.len() as f32, sum.unwrap_or(VEC3_ZERO));
    }
    let mut corner = || corner(ring[n.below(ring.len())]);
    let (a, b, c) = (corner(), corner(), corner());
    let (s, t) = (n.fraction().abs(), n.fraction().abs());
    lerp(lerp(a, b, s), c, t)
}

/// The vertex that the turn brings farthest against `up`.
fn deepest(shape: &Shape, q: Quat, up: Vec3) -> Vec3 {
    let height = |v| dot(rotate_vector(q, v), up);
    (0..shape.size.vertices)
        .map(|number| vertex(shape, number))
        .reduce(|best, v| if height(v) < height(best) { v } else { best })
        .expect("a hull has vertices")
}

/// The turn that carries a unit vector to another.
pub fn turning(from: Vec3, to: Vec3) -> Quat {
    let s = 1.0 + dot(from, to);
    if s < 1e-4 {
        return Quat {
            v: arbitrary_perp(from),
            s: 0.0,
        };
    }
    let v = cross(from, to);
    let by = 1.0 / (length_squared(v) + s * s).sqrt();
    Quat {
        v: mul_sv(by, v),
        s: by * s,
    }
}

pub fn spin(axis: Vec3, angle: f32) -> Quat {
    Quat {
        v: mul_sv((angle / 2.0).sin(), axis),
        s: (angle / 2.0).cos(),
    }
}

/// `q` after `r`.
pub fn after(q: Quat, r: Quat) -> Quat {
    let across = add(cross(q.v, r.v), mul_sv(q.s, r.v));
    Quat {
        v: add(across, mul_sv(r.s, q.v)),
        s: q.s * r.s - dot(q.v, r.v),
    }
}

/// Moved by at most so many metres, in this unit, and turned by at most so many radians.
pub fn moved(t: Transform, by: f32, unit: Unit, n: &mut Numbers) -> Transform {
    let [way, axis, _] = frame(n).map(|v| convert::vector(inputs::rounded(v)));
    Transform {
        p: mul_add(t.p, unit.scale() * by * n.fraction(), way),
        q: after(spin(axis, by * n.fraction()), t.q),
    }
}
