//! The sorts of pairs that the searches and the calls are held to the text on.

use crate::inputs::{self, rounded};
use crate::pairs::{placed, turned_or_not, Pair};
use crate::settled::Stack;
use crate::shapes::kinds::{any_log, COMPACT, STRETCHED};
use crate::shapes::solids::*;
use crate::shapes::{Padding, Shape};
use crate::{calls, convert, Numbers};
use edits::{edge_at_tolerance, faces_at, loose_box, tilted};
use oracle::math_functions::{neg, rotate_vector, sub, Quat, Transform, Vec3, VEC3_ZERO};
use places::{
    about_origin, any_edges, anyhow, arm, edge_on_edge, facing_edge, near_tolerance, quarter_turn,
    stretched_turn, towards, Spin,
};
use records::Unit;

pub mod edits;
pub mod places;

/// A name and a maker of pairs in this unit.
pub type Sort = (&'static str, fn(Unit, &mut Numbers) -> Pair);

/// Made anew until the transform is an accepted one, and rounding in the unit has left every edge long enough.
pub fn acceptable(make: impl Fn(Unit, &mut Numbers) -> Pair, unit: Unit, n: &mut Numbers) -> Pair {
    loop {
        let pair = make(unit, n);
        let transform = convert::our_transform(pair.transform);
        let good = [&pair.a, &pair.b].map(Shape::broken_rule) == [0; 2];
        if good && calls::transform_accepted(pair.unit().per_metre(), transform) {
            return pair;
        }
    }
}

/// The power of two at or above the unit. Lengths that are so much larger keep what a comparison without a length in it
/// comes to, to the last bit.
fn power_of_two(unit: Unit) -> f32 {
    unit.per_metre().next_power_of_two() as f32
}

pub const SORTS: [Sort; 13] = [
    ("of every kind, laid or set on each other", |unit, n| {
        let (a, b) = (any_kind(n), any_kind(n));
        stretched_turn(placed(a, b, n), n).in_unit(unit)
    }),
    ("of every kind, edge on edge", |unit, n| {
        let (a, b) = (any_kind(n), any_kind(n));
        let edges = any_edges(&a, &b, n);
        stretched_turn(edge_on_edge(a, b, edges, Spin::Any, n), n).in_unit(unit)
    }),
    ("of every kind, anyhow", |unit, n| {
        let (a, b) = (any_kind(n), any_kind(n));
        stretched_turn(anyhow(a, b, n), n).in_unit(unit)
    }),
    ("settled logs", |unit, n| settled(n).in_unit(unit)),
    ("alike, on a grid", |unit, n| {
        on_grid(n).measured(unit, power_of_two(unit))
    }),
    ("at the speculative distance", at_speculative),
    ("near-parallel edges", |unit, n| {
        let (a, b) = (long(n), long(n));
        let (edges, crossing) = (any_edges(&a, &b, n), Spin::By(near_tolerance(n)));
        edge_on_edge(a, b, edges, crossing, n).in_unit(unit)
    }),
    ("normals at the tolerances", |unit, n| {
        let half = [0.25, 0.5, 1.0, 2.0, 8.0][n.below(5)];
        let by = power_of_two(unit);
        let mut block = || {
            let block = Shape::any(&block([half; 3]), n).measured(unit, by);
            tilted(block, n)
        };
        let (a, b) = (block(), block());
        about_origin(a, b, by * half as f32, n)
    }),
    ("faces at the tolerance to an edge", |unit, n| {
        at_tolerance(n).measured(unit, power_of_two(unit))
    }),
    ("large, laid or set on each other", |unit, n| {
        let (a, b) = (large(n), large(n));
        placed(a, b, n).in_unit(unit)
    }),
    ("needles and plates far away", |unit, n| {
        far_away(n).in_unit(unit)
    }),
    ("padding that wins", |unit, n| {
        let (a, b) = (padded(n), padded(n));
        placed(a, b, n).in_unit(unit)
    }),
    ("boxes larger than their hulls", |unit, n| {
        in_large_boxes(n).in_unit(unit)
    }),
];

/// A pair of logs of a settled stack.
pub fn settled(n: &mut Numbers) -> Pair {
    let stack = Stack::new(2, 1, n);
    let pair = stack.pairs[0];
    Pair {
        a: stack.logs[pair.a].clone(),
        b: stack.logs[pair.b].clone(),
        transform: convert::transform(pair.transform),
    }
}

/// Any of the kinds, turned or not.
pub fn any_kind(n: &mut Numbers) -> Shape {
    let place = n.below(COMPACT.len() + STRETCHED.len());
    let (_, solid) = COMPACT
        .into_iter()
        .chain(STRETCHED)
        .nth(place)
        .expect("a kind");
    let solid = solid(n);
    turned_or_not(solid, n)
}

/// Two of one solid, at whole steps, straight or by quarter turns: faces, sides and edge pairs tie.
fn on_grid(n: &mut Numbers) -> Pair {
    let solid = match n.below(6) {
        0..=2 => block([1.0; 3]),
        3 => frustum(&polygon(12, 1.0), 1.0, 4.0),
        4 => frustum(&polygon([4, 6, 8][n.below(3)], 1.0), 1.0, 2.0),
        _ => bipyramid(4, 1.0, 1.0),
    };
    let mut shape = || match n.below(2) {
        0 => Shape::new(&solid),
        _ => Shape::any(&solid, n),
    };
    let (a, b) = (shape(), shape());
    let p = rounded([0.0; 3].map(|_: f64| [-2.0, -1.0, -0.5, 0.0, 0.5, 1.0, 2.0][n.below(7)]));
    Pair {
        a,
        b,
        transform: Transform {
            p: convert::vector(p),
            q: quarter_turn(n),
        },
    }
}

/// Two blocks face to face, or two roofs edge to edge across each other: exactly so far apart, or a float more or less.
fn at_speculative(unit: Unit, n: &mut Numbers) -> Pair {
    let (a, b) = if n.below(2) == 0 {
        let half = n.between(0.1, 2.0);
        let block = block([half; 3]);
        (
            block.clone().moved([-half, 0.0, 0.0]),
            block.moved([half, 0.0, 0.0]),
        )
    } else {
        (roof(n), across(roof(n)))
    };
    let near = about(unit.speculative_distance());
    let aside = |n: &mut Numbers| [0.0, n.fraction() * 0.05 * unit.scale()][n.below(2)];
    let p = Vec3 {
        x: near[n.below(3)],
        y: aside(n),
        z: aside(n),
    };
    Pair {
        a: Shape::any(&a, n).in_unit(unit),
        b: Shape::any(&b, n).in_unit(unit),
        transform: Transform {
            p,
            q: Quat {
                v: VEC3_ZERO,
                s: 1.0,
            },
        },
    }
}

/// A number, and the floats above and below it.
pub fn about(x: f32) -> [f32; 3] {
    [x, x.next_up(), x.next_down()]
}

/// A ridge along z through the origin, the rest below it on x. The slopes' normals have x 0.75, whose square has an
/// exact root.
pub fn roof(n: &mut Numbers) -> Solid {
    let low = n.between(0.5, 3.0);
    let wide = low * 0.75 / 0.4375f64.sqrt();
    frustum(
        &[[0.0, 0.0], [-low, wide], [-low, -wide]],
        1.0,
        n.between(0.5, 4.0),
    )
}

/// Turned so that x points the other way and z to y.
pub fn across(mut solid: Solid) -> Solid {
    for corner in &mut solid.corners {
        *corner = [-corner[0], corner[2], corner[1]];
    }
    solid
}

/// One with long edges.
fn long(n: &mut Numbers) -> Shape {
    let solid = match n.below(4) {
        0 => block([
            n.between(0.1, 1.0),
            n.between(0.1, 1.0),
            n.between(1.0, 20.0),
        ]),
        1 => any_log(n),
        2 => frustum(&polygon(3 + n.below(6), 1.0), 1.0, n.between(2.0, 40.0)),
        _ => frustum(&polygon(12, 0.3), n.between(0.8, 1.0), n.between(3.0, 6.0)),
    };
    Shape::any(&solid, n)
}

/// A prism along such an edge, and a block whose faces are at the tolerance to it.
fn at_tolerance(n: &mut Numbers) -> Pair {
    let (edge, height) = edge_at_tolerance(n);
    let [x, y, z] = [edge.x, edge.y, edge.z].map(f64::from);
    let a = frustum(&[[0.0, 0.0], [2.0, 0.0], [0.0, 2.0]], 1.0, z)
        .moved([0.0, 0.0, z / 2.0])
        .sheared([x / z, y / z]);
    let a = Shape::any(&a, n);
    let b = faces_at(edge, height, Shape::any(&block([2.0; 3]), n), n);
    let own = (0..a.size.half_edges / 2).map(|pair| 2 * pair).find(|&e| {
        let arm = arm(&a, e);
        arm == edge || arm == neg(edge)
    });
    facing_edge(a, b, own.expect("the prism has the edge"), n)
}

/// So large that rounding alone decides whether an edge lies along a face.
fn large(n: &mut Numbers) -> Shape {
    let size = [0.0; 3].map(|_: f64| n.between(50.0, 1500.0));
    let solid = match n.below(2) {
        0 => block([0.5; 3]),
        _ => frustum(&polygon(3 + n.below(6), 1.0), 1.0, 1.0),
    };
    Shape::any(&solid.stretched(size).turned(n), n)
}

/// Flat or thin, about 4000 from the origin on each axis, or only one of the two.
fn far_away(n: &mut Numbers) -> Pair {
    let (both, one) = (n.below(2) == 0, n.below(2) == 0);
    let ends = [0.0; 3].map(|_: f64| [-1.0, 1.0][n.below(2)]);
    let mut thin = |far: bool| loop {
        let mut scale = [0.0; 3].map(|_: f64| n.between(0.004, 0.05));
        for length in &mut scale[..1 + n.below(2)] {
            *length = n.between(0.5, 40.0);
        }
        scale.rotate_left(n.below(3));
        let solid = match n.below(2) {
            0 => block([0.5; 3]),
            _ => frustum(&polygon(3 + n.below(4), 1.0), 1.0, 1.0),
        };
        let solid = match n.below(2) {
            0 => solid.stretched(scale),
            _ => solid.stretched(scale).turned(n),
        };
        let by = if far { n.between(3950.0, 4050.0) } else { 0.0 };
        let shape = Shape::any(&solid.moved(ends.map(|end| end * by)), n);
        if shape.broken_rule() == 0 {
            return shape;
        }
    };
    let (a, b) = (thin(both || one), thin(both || !one));
    placed(a, b, n)
}

/// With lanes past the last vertex that lie outside the hull: one point in all of them, zeros, or anything.
pub fn padded(n: &mut Numbers) -> Shape {
    let solid = match n.below(4) {
        0 => frustum(&polygon(3 + 2 * n.below(4), 1.0), 1.0, 2.0),
        1 => pyramid(4 + n.below(9), 1.0, 1.0),
        2 => bipyramid(3 + n.below(8), 1.0, 1.0),
        _ => frustum(&[[0.0, 0.0], [1.0, 0.0], [0.0, 1.0]], 1.0, 1.0),
    };
    let reach = [0.0, 5.0, 500.0][n.below(3)];
    let mut shape = Shape::new(&solid.renumbered(n).placed(reach, n));
    let out = [1.0, 3.0, 4000.0][n.below(3)];
    let point = [0.0; 3].map(|_: f32| out * n.fraction());
    shape.pad(match n.below(4) {
        0 => Padding::Zeros,
        1 => Padding::Any(n),
        _ => Padding::Point(point),
    });
    shape
}

/// One near a far corner of its box and the other near its own origin, at that corner's side or anywhere about it.
fn in_large_boxes(n: &mut Numbers) -> Pair {
    let corner = [0.0; 3].map(|_: f64| [-1.0, 1.0][n.below(2)] * n.between(3900.0, 4050.0));
    let solid = |n: &mut Numbers| match n.below(3) {
        0 => bipyramid(4, 1.0, 1.0),
        1 => bipyramid(4, 1.0, 1.0).turned(n),
        _ => any_log(n),
    };
    let far = loose_box(Shape::any(&solid(n).moved(corner), n), n);
    let near = loose_box(Shape::any(&solid(n), n), n);
    let corner = convert::vector(rounded(corner));
    let q = match n.below(2) {
        0 => quarter_turn(n),
        _ => convert::rotation(inputs::rotation(n)),
    };
    if n.below(2) == 0 {
        let there = rotate_vector(q, corner);
        let p = sub(towards(there, n), there);
        let (a, b) = (near, far);
        let transform = Transform { p, q };
        return Pair { a, b, transform };
    }
    let p = sub(corner, towards(neg(corner), n));
    let (a, b) = (far, near);
    let transform = Transform { p, q };
    Pair { a, b, transform }
}
