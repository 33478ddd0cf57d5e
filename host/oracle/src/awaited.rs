//! Stand-ins for the three functions that the edge contact and the reduction wait for.
//! An answer that rests on one of them was not held to the repository.

use crate::math_functions::{dot, mul_add, normalize, sub, Vec3};

/// A unit vector across a unit vector: the reduction's first pick searches along it.
#[inline]
pub fn arbitrary_perp(v: Vec3) -> Vec3 {
    if v.x < -0.5 || 0.5 < v.x {
        normalize(Vec3 {
            x: v.y,
            y: -v.x,
            z: 0.0,
        })
    } else {
        normalize(Vec3 {
            x: 0.0,
            y: v.z,
            z: -v.y,
        })
    }
}

/// The closest points of two lines, and how far along each line's direction they stand.
#[derive(Debug, Clone, Copy, PartialEq)]
pub struct LineDistance {
    pub point1: Vec3,
    pub s1: f32,
    pub point2: Vec3,
    pub s2: f32,
}

/// The closest points of the lines `p1 + s1*d1` and `p2 + s2*d2`; of parallel lines, those for `s2 = 0`.
#[inline]
pub fn line_distance(p1: Vec3, d1: Vec3, p2: Vec3, d2: Vec3) -> LineDistance {
    let a11 = dot(d1, d1);
    let a12 = -dot(d1, d2);
    let a21 = dot(d2, d1);
    let a22 = -dot(d2, d2);

    let w = sub(p1, p2);
    let b1 = -dot(d1, w);
    let b2 = -dot(d2, w);

    let det = a11 * a22 - a12 * a21;
    if det * det < 1000.0 * f32::MIN_POSITIVE {
        let s1 = b1 / a11;
        return LineDistance {
            point1: mul_add(p1, s1, d1),
            s1,
            point2: p2,
            s2: 0.0,
        };
    }

    let s1 = (a22 * b1 - a12 * b2) / det;
    let s2 = (a11 * b2 - a21 * b1) / det;
    LineDistance {
        point1: mul_add(p1, s1, d1),
        s1,
        point2: mul_add(p2, s2, d2),
        s2,
    }
}

/// Both closest points stand on their segments, ends included.
#[inline]
pub fn is_within_segments(r: &LineDistance) -> bool {
    0.0 <= r.s1 && r.s1 <= 1.0 && 0.0 <= r.s2 && r.s2 <= 1.0
}
