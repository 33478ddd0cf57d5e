//! Polygons to be cut, and planes that cut them.

use crate::lists::pair;
use cases::convert;
use cases::inputs::{rounded, vector};
use cases::shapes::solids::frame;
use cases::Numbers;
use oracle::math_functions::{dot, plane_separation};
use probes::{ClipVertex, Plane, Vec3};
use std::f64::consts::TAU;

/// A name and a maker of corners.
pub type Sort = (&'static str, fn(&mut Numbers) -> Vec<Vec3>);

pub const SORTS: [Sort; 8] = [
    ("convex", |n| {
        let size = size(n);
        round(size, |n| n.between(0.0, 1.0), |_| 1.0, n)
    }),
    ("convex, 62 to 64 corners evenly", |n| {
        let size = 62 + n.below(3);
        round(size, |_| 0.5, |_| 1.0, n)
    }),
    ("not convex", |n| {
        let size = size(n);
        round(size, |n| n.between(0.0, 1.0), |n| n.between(0.2, 1.0), n)
    }),
    ("convex, a few odd floats", |n| {
        let size = size(n);
        let mut corners = round(size, |n| n.between(0.0, 1.0), |_| 1.0, n);
        for _ in 0..1 + n.below(3) {
            let corner = &mut corners[n.below(size)];
            let place = [&mut corner.x, &mut corner.y, &mut corner.z];
            *place[n.below(3)] = n.float();
        }
        corners
    }),
    ("not flat", |n| {
        let size = size(n);
        (0..size)
            .map(|_| rounded([0.0; 3].map(|_: f64| n.between(-3.0, 3.0))))
            .collect()
    }),
    ("on a grid", |n| {
        let size = size(n);
        (0..size)
            .map(|_| rounded([0.0; 3].map(|_: f64| n.below(5) as f64 - 2.0)))
            .collect()
    }),
    ("floats of any sort", |n| {
        let size = size(n);
        (0..size).map(|_| vector(n)).collect()
    }),
    ("one or two corners", |n| {
        let size = 1 + n.below(2);
        (0..size).map(|_| vector(n)).collect()
    }),
];

/// 3 to 64, often few and often about 64.
fn size(n: &mut Numbers) -> usize {
    match n.below(3) {
        0 => 3 + n.below(10),
        1 => 3 + n.below(62),
        _ => 60 + n.below(5),
    }
}

/// Round a point in a plane at any tilt, each corner in its own part of the circle and at its own part of the radius.
fn round(
    size: usize,
    mut angle: impl FnMut(&mut Numbers) -> f64,
    mut radius: impl FnMut(&mut Numbers) -> f64,
    n: &mut Numbers,
) -> Vec<Vec3> {
    let [u, v, _] = frame(n);
    let middle = [0.0; 3].map(|_: f64| n.between(-10.0, 10.0));
    let (long, wide) = (n.between(0.1, 5.0), n.between(0.1, 5.0));
    (0..size)
        .map(|i| {
            let angle = TAU * (i as f64 + angle(n)) / size as f64;
            let radius = radius(n);
            let (x, y) = (radius * long * angle.cos(), radius * wide * angle.sin());
            rounded([0, 1, 2].map(|axis| middle[axis] + x * u[axis] + y * v[axis]))
        })
        .collect()
}

/// The corners with any tags, and their distances from the reference plane.
pub fn tagged(corners: &[Vec3], reference: Plane, n: &mut Numbers) -> Vec<ClipVertex> {
    corners
        .iter()
        .map(|&position| ClipVertex {
            position,
            separation: plane_separation(convert::plane(reference), convert::vector(position)),
            pair: pair(n),
        })
        .collect()
}

/// Along an axis, any way, or floats of any sort.
pub fn direction(n: &mut Numbers) -> Vec3 {
    match n.below(8) {
        0..=2 => {
            let mut axis = [0.0; 3];
            axis[n.below(3)] = [1.0, -1.0][n.below(2)];
            rounded(axis)
        }
        7 => vector(n),
        _ => rounded(frame(n)[0]),
    }
}

pub fn any_plane(n: &mut Numbers) -> Plane {
    let normal = direction(n);
    let offset = if n.below(8) == 0 {
        n.float()
    } else {
        n.fraction() * 3.0
    };
    Plane { normal, offset }
}

/// A plane through the corners, through one of them exactly, past the outermost, or beyond them all.
pub fn cutting(corners: &[Vec3], n: &mut Numbers) -> Plane {
    let normal = direction(n);
    let height = |&corner| dot(convert::vector(normal), convert::vector(corner));
    let mut heights: Vec<f32> = corners.iter().map(height).collect();
    let any = heights[n.below(heights.len())];
    heights.sort_by(f32::total_cmp);
    let (low, high) = (heights[0], heights[heights.len() - 1]);
    let second = heights[heights.len().saturating_sub(2)];
    let offset = match n.below(10) {
        0..=2 => low + (high - low) * (n.fraction() + 1.0) / 2.0,
        3 | 4 => any,
        5 => high,
        6 => low,
        7 => second + (high - second) / 2.0,
        8 => [high + 0.5, low - 0.5, high.next_down(), low.next_down()][n.below(4)],
        _ => n.float(),
    };
    Plane { normal, offset }
}
