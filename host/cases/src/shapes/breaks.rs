//! Breaks of the rules of a hull. A break keeps every rule before its own, so that the answer is known.

use super::{Link, Shape};
use crate::Numbers;
use shells::*;
use walks::*;

pub mod shells;
pub mod walks;

/// Changes a hull so that a rule is broken; whether this hull allows it.
pub type Break = fn(&mut Shape, &mut Numbers) -> bool;

/// The rules have the numbers from 1 to this one.
pub const RULES: u8 = BREAKS.len() as u8;

/// The breaks of H1 to H9. Each works on any hull that keeps the rules up to its own.
const BREAKS: [&[Break]; 9] = [
    &[other_size, other_length, other_unit],
    &[out_of_range],
    &[other_twin, numbers_exchanged],
    &[other_origin, other_face, nexts_exchanged],
    &[chain_across_rings, chain_within_ring],
    &[
        face_edge_elsewhere,
        face_edges_exchanged,
        two_rings,
        ring_of_two,
        shells_with_one_face,
    ],
    &[
        vertex_edge_elsewhere,
        vertex_edges_exchanged,
        two_fans,
        shells_with_one_vertex,
    ],
    &[
        beyond_limit,
        outside_box,
        box_too_small,
        short_normal,
        no_length,
    ],
    &[tetrahedron_beside, copy_beside, shells_in_its_place],
];

/// By any of the rule's breaks that the hull allows; each rule has one that every hull allows.
pub fn break_rule(rule: u8, shape: &mut Shape, n: &mut Numbers) {
    let breaks = BREAKS[usize::from(rule) - 1];
    while !breaks[n.below(breaks.len())](shape, n) {}
}

fn any_edge(shape: &Shape, n: &mut Numbers) -> usize {
    n.below(shape.size.half_edges)
}

/// One of `0..limit` but `not`.
fn other(not: usize, limit: usize, n: &mut Numbers) -> usize {
    (not + 1 + n.below(limit - 1)) % limit
}

/// Every half-edge with this face or origin gets that one.
fn rename(shape: &mut Shape, link: Link, from: usize, to: usize) {
    for edge in 0..shape.size.half_edges {
        if shape.get(edge, link) == from {
            shape.set(edge, link, to);
        }
    }
}

fn end(shape: &Shape, edge: usize) -> usize {
    shape.get(shape.get(edge, Link::Twin), Link::Origin)
}

fn other_size(shape: &mut Shape, n: &mut Numbers) -> bool {
    let size = &mut shape.size;
    let which = [&mut size.vertices, &mut size.half_edges, &mut size.faces];
    let by = [1, 2, 4, 128, 1 << 32, 1 << 62, 1 << 63][n.below(7)];
    let which: &mut usize = which.into_iter().nth(n.below(3)).expect("one of three");
    *which = if n.below(2) == 0 {
        which.wrapping_add(by)
    } else {
        which.wrapping_sub(by)
    };
    true
}

fn other_length(shape: &mut Shape, n: &mut Numbers) -> bool {
    let (numbers, links) = (shape.numbers.len(), shape.links.len());
    match n.below(4) {
        0 => shape.numbers.truncate(n.below(numbers)),
        1 => shape.numbers.extend(vec![0.0; 1 + n.below(300)]),
        2 => shape.links.truncate(n.below(links)),
        _ => shape.links.extend(vec![0; 1 + n.below(300)]),
    }
    true
}

/// Units that there are not, some of them beside one that there is or the same in their low bytes.
pub const UNKNOWN_UNITS: [usize; 14] = [
    0,
    2,
    5,
    9,
    11,
    99,
    101,
    999,
    1001,
    10_000,
    65_535,
    (1 << 16) + 10,
    (1 << 32) + 1,
    usize::MAX,
];

fn other_unit(shape: &mut Shape, n: &mut Numbers) -> bool {
    shape.size.unit = UNKNOWN_UNITS[n.below(UNKNOWN_UNITS.len())];
    true
}

fn out_of_range(shape: &mut Shape, n: &mut Numbers) -> bool {
    let place = n.below(shape.links.len());
    let size = shape.size;
    let limit = match place.checked_sub(size.vertices) {
        Some(i) if i < 4 * size.half_edges && i % 4 == Link::Origin as usize => size.vertices,
        Some(i) if i < 4 * size.half_edges && i % 4 == Link::Face as usize => size.faces,
        _ => size.half_edges,
    };
    if limit > 255 {
        return false;
    }
    shape.links[place] = (limit + n.below(256 - limit)) as u8;
    true
}

fn other_twin(shape: &mut Shape, n: &mut Numbers) -> bool {
    let edge = any_edge(shape, n);
    let twin = other(edge ^ 1, shape.size.half_edges, n);
    shape.set(edge, Link::Twin, twin);
    true
}

/// Twins are still each other's, but no longer side by side.
fn numbers_exchanged(shape: &mut Shape, n: &mut Numbers) -> bool {
    let a = any_edge(shape, n);
    let b = (a ^ 1) ^ (2 + 2 * n.below(2));
    if b >= shape.size.half_edges {
        return false;
    }
    *shape = shape.with_edges_renumbered(|edge| match edge {
        _ if edge == a => b,
        _ if edge == b => a,
        _ => edge,
    });
    true
}

/// Not of the one half-edge at a corner that stands alone in a face: its twin leads to it, and would still fit.
fn other_origin(shape: &mut Shape, n: &mut Numbers) -> bool {
    let edge = any_edge(shape, n);
    if shape.get(edge ^ 1, Link::Next) == edge {
        return false;
    }
    let origin = other(shape.get(edge, Link::Origin), shape.size.vertices, n);
    shape.set(edge, Link::Origin, origin);
    true
}

fn other_face(shape: &mut Shape, n: &mut Numbers) -> bool {
    let edge = any_edge(shape, n);
    let face = other(shape.get(edge, Link::Face), shape.size.faces, n);
    shape.set(edge, Link::Face, face);
    true
}

/// Of two half-edges that end at one vertex or have one face, or of any two; no two get the same next.
fn nexts_exchanged(shape: &mut Shape, n: &mut Numbers) -> bool {
    let (a, b) = (any_edge(shape, n), any_edge(shape, n));
    let same_end = end(shape, a) == end(shape, b);
    let same_face = shape.get(a, Link::Face) == shape.get(b, Link::Face);
    let wanted = match n.below(3) {
        0 => same_end && !same_face,
        1 => same_face && !same_end,
        _ => !same_face || !same_end,
    };
    if wanted {
        let (after_a, after_b) = (shape.get(a, Link::Next), shape.get(b, Link::Next));
        shape.set(a, Link::Next, after_b);
        shape.set(b, Link::Next, after_a);
    }
    wanted
}

fn beyond_limit(shape: &mut Shape, n: &mut Numbers) -> bool {
    let beyond = [
        f32::NAN,
        f32::INFINITY,
        f32::NEG_INFINITY,
        shape.unit().farthest_offset().next_up(),
        -1e30,
    ];
    let place = n.below(shape.numbers.len());
    shape.numbers[place] = beyond[n.below(beyond.len())];
    true
}

fn outside_box(shape: &mut Shape, n: &mut Numbers) -> bool {
    let (axis, vertex) = (n.below(3), n.below(shape.size.vertices));
    let place = shape.coordinate(axis, vertex);
    shape.numbers[place] = if n.below(2) == 0 {
        shape.numbers[axis].next_down()
    } else {
        shape.numbers[3 + axis].next_up()
    };
    true
}

fn box_too_small(shape: &mut Shape, n: &mut Numbers) -> bool {
    let side = n.below(6);
    let x = shape.numbers[side];
    shape.numbers[side] = if side < 3 { x.next_up() } else { x.next_down() };
    true
}

fn short_normal(shape: &mut Shape, n: &mut Numbers) -> bool {
    let plane = shape.plane(n.below(shape.size.faces));
    let by = [0.0, 0.99, 1.01, -2.0][n.below(4)];
    for x in &mut shape.numbers[plane..plane + 3] {
        *x *= by;
    }
    true
}

/// The ends of an edge become one point.
fn no_length(shape: &mut Shape, n: &mut Numbers) -> bool {
    let edge = any_edge(shape, n);
    let (from, to) = (shape.get(edge, Link::Origin), end(shape, edge));
    for axis in 0..3 {
        let (from, to) = (shape.coordinate(axis, from), shape.coordinate(axis, to));
        shape.numbers[to] = shape.numbers[from];
    }
    true
}
