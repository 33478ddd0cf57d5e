//! Hulls with planes and boxes that the rules allow and no builder makes.

use crate::pairs::normal;
use crate::shapes::Shape;
use crate::Numbers;
use oracle::math_functions::{add, dot, length_squared, mul_add, mul_sub, normalize, Vec3};

/// The text's `EPS` without its sign: the product of two heights from which they count as on two sides.
const EPS: f32 = 0.0001;

/// The tolerance of parallel edges.
const TOLERANCE: f32 = 0.005;

/// Each normal of a block whose sides have the length of a power of two tilted along its other axes, so that products
/// of heights along an edge and heights themselves lie at the tolerances, or a float beside them.
pub fn tilted(mut shape: Shape, n: &mut Numbers) -> Shape {
    let side = shape.numbers[3] - shape.numbers[0];
    for face in 0..shape.size.faces {
        let from = shape.plane(face);
        for number in &mut shape.numbers[from..from + 3] {
            if number.abs() < 0.5 {
                *number = tilt(side, n);
            }
        }
    }
    shape
}

fn tilt(side: f32, n: &mut Numbers) -> f32 {
    let at = match n.below(6) {
        0 => 0.0,
        1 | 2 => TOLERANCE,
        3 | 4 => EPS / (side * side),
        _ => TOLERANCE * n.fraction(),
    };
    let near = [at, at, at.next_up(), at.next_down()][n.below(4)];
    [near, -near][n.below(2)]
}

/// An edge and a height along it whose square is at the tolerance or a float beside it. The height is a multiple of
/// 2^-21, which sums of rounded products come to.
pub fn edge_at_tolerance(n: &mut Numbers) -> (Vec3, f32) {
    loop {
        let [x, y, z] = [0; 3].map(|_| n.between(1.0, 3.0) as f32);
        let arm = Vec3 { x, y, z };
        let least = TOLERANCE * TOLERANCE * length_squared(arm);
        let height = (least.sqrt() * (1 << 21) as f32).round() / (1 << 21) as f32;
        if (height * height).to_bits().abs_diff(least.to_bits()) <= 1 {
            return (arm, height);
        }
    }
}

/// Each normal turned across an edge of another hull, all but such a height along it, up or down.
pub fn faces_at(arm: Vec3, height: f32, mut shape: Shape, n: &mut Numbers) -> Shape {
    let along = normalize(arm);
    let by = height / length_squared(arm).sqrt();
    for face in 0..shape.size.faces {
        let own = normal(&shape, face);
        let found = (0..1000).find_map(|_| {
            let [x, y, z] = [0; 3].map(|_| 0.05 * n.fraction());
            let near = add(own, Vec3 { x, y, z });
            let across = normalize(mul_sub(near, dot(near, along), along));
            let tilted = mul_add(across, [by, -by][n.below(2)], along);
            let reached = tilted.x * arm.x + (tilted.y * arm.y + tilted.z * arm.z);
            (reached.abs() == height).then_some(tilted)
        });
        if let Some(Vec3 { x, y, z }) = found {
            let from = shape.plane(face);
            shape.numbers[from..from + 3].copy_from_slice(&[x, y, z]);
        }
    }
    shape
}

/// The box reaches up to the limit of coordinates, here or there.
pub fn loose_box(mut shape: Shape, n: &mut Numbers) -> Shape {
    for place in 0..6 {
        let limit = if place < 3 { -4096.0 } else { 4096.0 };
        let own = shape.numbers[place];
        shape.numbers[place] = match n.below(4) {
            0 => own,
            1 => own + (limit - own) * (n.fraction() + 1.0) / 2.0,
            _ => limit,
        };
    }
    shape
}
