//! Hulls with damaged numbers: every float in turn, and the ends of each limit of H8.

use super::{any_shape, compact, Total};
use cases::shapes::kinds::COMPACT;
use cases::shapes::{Link, Shape};
use cases::sorts::about;
use cases::{Numbers, SPECIAL};
use records::Unit;

/// The limits of H8 in a unit.
fn limits(unit: Unit) -> [f32; 5] {
    [
        unit.farthest(),
        unit.farthest_offset(),
        unit.shortest_edge(),
        LEAST_SUM,
        MOST_SUM,
    ]
}

const LEAST_SUM: f32 = 0.99;
const MOST_SUM: f32 = 1.01;

pub fn run(total: &mut Total, n: &mut Numbers, count: usize) {
    total.sort("every float", |sort| {
        for i in 0..count.div_ceil(300) {
            let solid = COMPACT[i % COMPACT.len()].1(n);
            let shape = Shape::any(&solid, n).in_unit(Unit::ALL[i % 4]);
            every_float(shape, |shape| sort.hold(shape));
        }
    });
    total.sort("normals at both ends", |sort| {
        for i in 0..count {
            let (sum, rule) = ends_of_sums()[i % 6];
            let mut shape = any_shape(n);
            let plane = shape.plane(n.below(shape.size.faces));
            shape.numbers[plane..plane + 3].copy_from_slice(&with_sum::<3>(sum, n));
            sort.expect(&shape, if rule { 0 } else { 8 });
        }
    });
    total.sort("shortest edges", |sort| {
        for i in 0..count {
            let (shape, answer) = short_edge(i % 2 == 0, n.unit(), n);
            sort.expect(&shape, answer);
        }
    });
    total.sort("edges that round to the shortest", |sort| {
        for _ in 0..count {
            sort.hold(&rounded_edge(n.unit(), n));
        }
    });
    total.sort("vertices on the box", |sort| {
        for i in 0..count {
            let mut shape = any_shape(n);
            let side = n.below(6);
            let x = shape.numbers[side];
            let moved = [x, x.next_up(), x.next_down()][i % 3];
            shape.numbers[side] = moved;
            let outside = if side < 3 { x < moved } else { x > moved };
            sort.expect(&shape, if outside { 8 } else { 0 });
        }
    });
    total.sort("several floats at random", |sort| {
        for _ in 0..count {
            let mut shape = any_shape(n);
            for _ in 0..1 + n.below(3) {
                let place = n.below(shape.numbers.len());
                shape.numbers[place] = n.float();
            }
            sort.hold(&shape);
        }
    });
}

/// Each float set to each special value, and to each limit of either sign and its neighbours.
fn every_float(mut shape: Shape, mut hold: impl FnMut(&Shape)) {
    let ends = limits(shape.unit()).into_iter().flat_map(about);
    let values: Vec<f32> = (SPECIAL.into_iter())
        .chain(ends.flat_map(|x| [x, -x]))
        .collect();
    for place in 0..shape.numbers.len() {
        let kept = shape.numbers[place];
        for &x in &values {
            shape.numbers[place] = x;
            hold(&shape);
        }
        shape.numbers[place] = kept;
    }
}

/// Sums of squares at the two ends and a step to either side, and whether each is accepted.
pub fn ends_of_sums() -> [(f32, bool); 6] {
    [
        (LEAST_SUM.next_down(), false),
        (LEAST_SUM, true),
        (LEAST_SUM.next_up(), true),
        (MOST_SUM.next_down(), true),
        (MOST_SUM, true),
        (MOST_SUM.next_up(), false),
    ]
}

/// Numbers whose squares, rounded and summed left to right, give exactly this sum.
pub fn with_sum<const N: usize>(sum: f32, n: &mut Numbers) -> [f32; N] {
    let squares = |parts: [f32; N]| parts.map(|x| x * x).into_iter().reduce(|a, b| a + b);
    loop {
        let parts = [0.0f32; N].map(|_| n.fraction());
        let by = (sum / squares(parts).unwrap_or(1.0)).sqrt();
        let mut parts = parts.map(|x| x * by);
        for _ in 0..16 {
            if squares(parts) == Some(sum) {
                return parts;
            }
            let part = &mut parts[n.below(N)];
            *part = if n.below(2) == 0 {
                part.next_up()
            } else {
                part.next_down()
            };
        }
    }
}

/// A hull in this unit with the ends of an edge where these two points are.
fn with_edge(from: [f32; 3], to: [f32; 3], unit: Unit, n: &mut Numbers) -> Shape {
    let mut shape = Shape::any(&compact(n).turned(n), n).in_unit(unit);
    let edge = n.below(shape.size.half_edges);
    for (end, point) in [(edge, from), (edge ^ 1, to)] {
        let vertex = shape.get(end, Link::Origin);
        for (axis, x) in point.into_iter().enumerate() {
            let place = shape.coordinate(axis, vertex);
            shape.numbers[place] = x;
        }
    }
    shape.fit_box();
    shape
}

/// A hull with an edge as short as the limit on at least one axis, or a step shorter on all; and its answer.
fn short_edge(long_enough: bool, unit: Unit, n: &mut Numbers) -> (Shape, u8) {
    let shortest = unit.shortest_edge();
    let shorter = shortest.next_down();
    let mut arms = [0.0; 3].map(|_| [0.0, 1e-9, shorter, -shorter][n.below(4)]);
    let axis = n.below(3);
    arms[axis] = if long_enough { shortest } else { shorter };
    if n.below(2) == 0 {
        arms[axis] = -arms[axis];
    }
    (
        with_edge([0.0; 3], arms, unit, n),
        if long_enough { 0 } else { 8 },
    )
}

/// A hull with an edge whose ends differ on one axis by the limit, give or take what rounding may add or hide.
fn rounded_edge(unit: Unit, n: &mut Numbers) -> Shape {
    let tiny = [1e-45, 1e-12, 2e-11, 5e-11, 1e-10, 1e-6, 0.25, 100.0][n.below(8)] * unit.scale();
    let shortest = unit.shortest_edge();
    let axis = n.below(3);
    let (mut from, mut to) = ([0.0; 3], [0.0; 3]);
    from[axis] = [tiny, -tiny][n.below(2)];
    let x = [shortest, -shortest][n.below(2)];
    let x = if tiny < 1e-6 * unit.scale() {
        x
    } else {
        x + from[axis]
    };
    to[axis] = about(x)[n.below(3)];
    with_edge(from, to, unit, n)
}
