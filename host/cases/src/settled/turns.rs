//! Turns as unit quaternions in larger floats, the scalar last.

use crate::shapes::{add, cross, dot};

pub const IDENTITY: [f64; 4] = [0.0, 0.0, 0.0, 1.0];

/// By this angle about a unit axis.
pub fn spin(axis: [f64; 3], angle: f64) -> [f64; 4] {
    let (sine, cosine) = (angle / 2.0).sin_cos();
    let [x, y, z] = axis.map(|x| x * sine);
    [x, y, z, cosine]
}

/// `q` after `r`.
pub fn after(q: [f64; 4], r: [f64; 4]) -> [f64; 4] {
    let ([v, w], [s, t]) = ([q, r].map(vector), [q[3], r[3]]);
    let sum = add(w.map(|x| x * s), v.map(|x| x * t));
    let [x, y, z] = add(cross(v, w), sum);
    [x, y, z, s * t - dot(v, w)]
}

/// The vector turned.
pub fn turned(q: [f64; 4], v: [f64; 3]) -> [f64; 3] {
    let axis = vector(q);
    let across = cross(axis, v).map(|x| 2.0 * x);
    add(add(v, across.map(|x| x * q[3])), cross(axis, across))
}

/// The turn that carries three directions at right angles to three others of the same hand.
pub fn from_axes(from: [[f64; 3]; 3], to: [[f64; 3]; 3]) -> [f64; 4] {
    let first = shortest(from[0], to[0]);
    let second = turned(first, from[1]);
    let (cosine, sine) = (dot(second, to[1]), dot(cross(second, to[1]), to[0]));
    after(spin(to[0], sine.atan2(cosine)), first)
}

/// The shortest turn that carries a unit vector to another.
fn shortest(from: [f64; 3], to: [f64; 3]) -> [f64; 4] {
    let across = cross(from, to);
    let (sine, cosine) = (dot(across, across).sqrt(), dot(from, to));
    if sine > 1e-9 {
        return spin(across.map(|x| x / sine), sine.atan2(cosine));
    }
    if cosine > 0.0 {
        return IDENTITY;
    }
    let least = (0..3).min_by(|&i, &j| from[i].abs().total_cmp(&from[j].abs()));
    let mut other = [0.0; 3];
    other[least.unwrap_or(0)] = 1.0;
    let axis = cross(from, other);
    let size = dot(axis, axis).sqrt();
    spin(axis.map(|x| x / size), std::f64::consts::PI)
}

fn vector([x, y, z, _]: [f64; 4]) -> [f64; 3] {
    [x, y, z]
}
