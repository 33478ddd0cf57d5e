//! A tetrahedron and a cube made by hand, and each rule broken on them, with the answers that the documents give.

use hull::{cube, tetrahedron, Hull};
use validator::{first_broken_rule, transform_accepted};

mod hull;
mod shells;
mod units;

const NEXT: usize = 0;
const TWIN: usize = 1;
const ORIGIN: usize = 2;
const FACE: usize = 3;

/// Places in the numbers: the box's high x, the x list, and the cube's first normal and offset.
const HIGH: usize = 3;
const X: usize = 6;
const NORMAL: usize = 30;
const OFFSET: usize = 33;

/// The neighbours of a positive number.
fn above(x: f32) -> f32 {
    f32::from_bits(x.to_bits() + 1)
}

fn below(x: f32) -> f32 {
    f32::from_bits(x.to_bits() - 1)
}

#[test]
fn whole_hulls() {
    assert_eq!(tetrahedron().answer(), 0);
    assert_eq!(cube().answer(), 0);
}

#[test]
fn sizes() {
    let cube = cube();
    for (v, h, f) in [
        (3, 24, 6),
        (9, 24, 6),
        (129, 24, 6),
        (8, 10, 6),
        (8, 23, 6),
        (8, 258, 6),
        (8, 24, 3),
        (8, 24, 129),
        (0, 0, 0),
        // Sums that come round to the right lengths.
        (8, 24 + (1 << 62), 6),
        (8, 24, 6 + (1 << 62)),
        (8 + (1 << 63), 24 + (1 << 61), 6),
        (usize::MAX, usize::MAX, usize::MAX),
    ] {
        assert_eq!(cube.answer_for(v, h, f), 1, "{v} {h} {f}");
    }
    assert_eq!(cube.changed(|h| h.numbers.push(0.0)), 1);
    assert_eq!(cube.changed(|h| h.numbers.truncate(53)), 1);
    let links = cube.links();
    let longer = [links.as_slice(), &[0]].concat();
    for links in [&links[1..], &longer, &[]] {
        assert_eq!(first_broken_rule(&cube.numbers, links, 1, 8, 24, 6), 1);
    }
    assert_eq!(first_broken_rule(&[], &links, 1, 8, 24, 6), 1);
}

#[test]
fn numbers_out_of_range() {
    let cube = cube();
    assert_eq!(cube.changed(|h| h.vertex_edges[7] = 24), 2);
    assert_eq!(cube.changed(|h| h.half_edges[23][NEXT] = 24), 2);
    assert_eq!(cube.changed(|h| h.half_edges[23][TWIN] = 24), 2);
    assert_eq!(cube.changed(|h| h.half_edges[23][ORIGIN] = 8), 2);
    assert_eq!(cube.changed(|h| h.half_edges[23][FACE] = 6), 2);
    assert_eq!(cube.changed(|h| h.face_edges[5] = 255), 2);
}

#[test]
fn other_twins() {
    assert_eq!(tetrahedron().changed(|h| h.half_edges[0][TWIN] = 11), 3);
    assert_eq!(cube().changed(|h| h.half_edges[23][TWIN] = 23), 3);
}

#[test]
fn next_elsewhere() {
    let cube = cube();
    assert_eq!(cube.changed(|h| h.half_edges[4][ORIGIN] = 7), 4);
    assert_eq!(cube.changed(|h| h.half_edges[4][FACE] = 1), 4);
    // A ring cut short: 0, 2, 4, 2, ..
    assert_eq!(cube.changed(|h| h.half_edges[4][NEXT] = 2), 4);
}

/// Faces 0 and 1 of the tetrahedron under one number, and 4, which comes to corner 0, led on into the other ring: the
/// chain 0, 2, 4 enters the loop 5, 6, 8 and misses its start.
#[test]
fn same_next() {
    let one_face = |h: &mut Hull| [5, 6, 8].map(|edge: usize| h.half_edges[edge][FACE] = 0);
    let chain = |h: &mut Hull| {
        one_face(h);
        h.half_edges[4][NEXT] = 5;
    };
    assert_eq!(tetrahedron().changed(chain), 5);
}

#[test]
fn rings() {
    let cube = cube();
    assert_eq!(cube.changed(|h| h.face_edges.swap(0, 1)), 6);
    // Faces 4 and 5 under one number: two rings, of which the stored edge finds one.
    let two_rings = |h: &mut Hull| {
        for edge in &mut h.half_edges {
            edge[FACE] = edge[FACE].min(4);
        }
        h.face_edges.pop();
        h.numbers.truncate(h.numbers.len() - 4);
    };
    assert_eq!(cube.changed(two_rings), 6);
    // A second edge beside 0 and 1, and between the two a face with a ring of two, 1 and 12.
    let doubled = |h: &mut Hull| {
        h.half_edges[10][NEXT] = 13;
        h.half_edges[1] = [12, 0, 2, 4];
        h.half_edges.push([1, 13, 0, 4]);
        h.half_edges.push([9, 12, 2, 2]);
        h.face_edges.push(12);
        h.numbers.extend([0.0, 0.0, 1.0, 0.0]);
    };
    assert_eq!(tetrahedron().changed(doubled), 6);
}

#[test]
fn fans() {
    let cube = cube();
    assert_eq!(cube.changed(|h| h.vertex_edges.swap(0, 1)), 7);
    // Corners 0 and 7 under one number: two fans, of which the stored edge finds one.
    let two_fans = |h: &mut Hull| {
        for edge in &mut h.half_edges {
            edge[ORIGIN] %= 7;
        }
        h.vertex_edges.pop();
    };
    assert_eq!(cube.changed(two_fans), 7);
}

#[test]
fn any_float_that_is_not_finite() {
    let hull = tetrahedron();
    for place in 0..hull.numbers.len() {
        for x in [f32::NAN, f32::INFINITY, f32::NEG_INFINITY] {
            assert_eq!(hull.with(place, x), 8, "{x} at {place}");
        }
    }
}

#[test]
fn ends_of_the_limits() {
    let cube = cube();
    assert_eq!(cube.with(HIGH, 4096.0), 0);
    assert_eq!(cube.with(HIGH, above(4096.0)), 8);
    assert_eq!(cube.with(HIGH, below(1.0)), 8);
    assert_eq!(cube.with(X + 1, above(1.0)), 8);
    assert_eq!(cube.with(OFFSET, -8192.0), 0);
    assert_eq!(cube.with(OFFSET, above(8192.0)), 8);
    // The squares of these, rounded, lie on either side of the ends.
    assert_eq!(cube.with(NORMAL, 0.995), 0);
    assert_eq!(cube.with(NORMAL, -0.9949), 8);
    assert_eq!(cube.with(NORMAL, 1.0049), 0);
    assert_eq!(cube.with(NORMAL, 1.005), 8);
}

/// The tetrahedron with a fifth corner in its middle, alone with an edge to corner 0 and back inside face 0. Its lists
/// have three padding lanes, which may lie outside the box but not beyond 4096.
#[test]
fn padding() {
    let mut hull = tetrahedron();
    hull.vertex_edges.push(12);
    hull.half_edges[4][NEXT] = 13;
    hull.half_edges.push([0, 13, 4, 0]);
    hull.half_edges.push([12, 12, 0, 0]);
    let lists: Vec<f32> = hull.numbers[6..18]
        .chunks(4)
        .flat_map(|list| [list, &[0.25, 4096.0, -4096.0, 7.0]].concat())
        .collect();
    hull.numbers.splice(6..18, lists);
    assert_eq!(hull.answer(), 0);
    assert_eq!(hull.with(X + 5, above(4096.0)), 8);
    assert_eq!(hull.with(X + 7, f32::NAN), 8);
    assert_eq!(hull.with(X + 4, 2.0), 8);
}

/// Corners 6 and 7 of the cube differ in x alone: brought as near as the limit, a step nearer, and to a difference that
/// rounds to the limit.
#[test]
fn short_edges() {
    let least = 1.0 / 1024.0;
    let apart = |from: f32, to: f32| {
        cube().changed(|h| {
            h.numbers[X + 6] = from;
            h.numbers[X + 7] = to;
        })
    };
    assert_eq!(apart(0.0, least), 0);
    assert_eq!(apart(0.0, -least), 0);
    assert_eq!(apart(0.0, below(least)), 8);
    assert_eq!(apart(0.0, 0.0), 8);
    assert_eq!(apart(1e-12, least), 0);
    assert_eq!(apart(1e-9, least), 8);
}

#[test]
fn first_of_two() {
    let cube = cube();
    let two = |h: &mut Hull| {
        h.face_edges.swap(0, 1);
        h.half_edges[4][FACE] = 1;
    };
    assert_eq!(cube.changed(two), 4);
    let two = |h: &mut Hull| {
        h.numbers[0] = f32::NAN;
        h.vertex_edges.swap(0, 1);
    };
    assert_eq!(cube.changed(two), 7);
}

#[test]
fn transforms() {
    let unit = [0.0, 0.0, 0.0, 1.0];
    assert!(transform_accepted(1, [4096.0, -4096.0, 0.0], unit));
    assert!(!transform_accepted(1, [0.0, above(4096.0), 0.0], unit));
    assert!(!transform_accepted(1, [f32::NAN, 0.0, 0.0], unit));
    assert!(!transform_accepted(1, [0.0, 0.0, f32::NEG_INFINITY], unit));
    assert!(transform_accepted(1, [0.0; 3], [0.5, -0.5, 0.5, -0.5]));
    assert!(!transform_accepted(1, [0.0; 3], [0.0; 4]));
    assert!(!transform_accepted(1, [0.0; 3], [0.5, 0.5, 0.5, 0.52]));
    for x in [f32::NAN, f32::INFINITY, 1.005] {
        for place in 0..4 {
            let mut quaternion = [0.0; 4];
            quaternion[place] = x;
            assert!(!transform_accepted(1, [0.0; 3], quaternion));
        }
    }
}
