//! The breaks of H5, H6 and H7: walks that never come back, that are too short, or that miss a half-edge.

use super::{any_edge, end, other, rename};
use crate::shapes::{Link, Shape};
use crate::Numbers;

/// Two rings that meet at a vertex get one face, and the first is led into the second, from which it does not come back.
pub fn chain_across_rings(shape: &mut Shape, n: &mut Numbers) -> bool {
    let (a, b) = (any_edge(shape, n), any_edge(shape, n));
    let (face_a, face_b) = (shape.get(a, Link::Face), shape.get(b, Link::Face));
    if end(shape, a) != end(shape, b) || face_a == face_b {
        return false;
    }
    rename(shape, Link::Face, face_b, face_a);
    lead(shape, a, b);
    true
}

/// Two corners of a ring become one vertex, and the ring is led past the part between them; a walk from there does not
/// come back.
pub fn chain_within_ring(shape: &mut Shape, n: &mut Numbers) -> bool {
    let (a, b) = (any_edge(shape, n), any_edge(shape, n));
    if a == b || shape.get(a, Link::Face) != shape.get(b, Link::Face) {
        return false;
    }
    let (end_a, end_b) = (end(shape, a), end(shape, b));
    rename(shape, Link::Origin, end_a, end_b);
    lead(shape, a, b);
    true
}

/// The next of `a` becomes that of `b`; the one that it was, which nothing leads to now, becomes its face's and vertex's
/// stored one.
fn lead(shape: &mut Shape, a: usize, b: usize) {
    let left_out = shape.get(a, Link::Next);
    shape.store(left_out);
    shape.set(a, Link::Next, shape.get(b, Link::Next));
}

pub fn face_edge_elsewhere(shape: &mut Shape, n: &mut Numbers) -> bool {
    let edge = any_edge(shape, n);
    let face = other(shape.get(edge, Link::Face), shape.size.faces, n);
    let place = shape.face_edge(face);
    shape.links[place] = edge as u8;
    true
}

pub fn face_edges_exchanged(shape: &mut Shape, n: &mut Numbers) -> bool {
    let a = n.below(shape.size.faces);
    let b = other(a, shape.size.faces, n);
    let (a, b) = (shape.face_edge(a), shape.face_edge(b));
    shape.links.swap(a, b);
    true
}

/// Two faces become one with two rings; its stored edge finds only one of them.
pub fn two_rings(shape: &mut Shape, n: &mut Numbers) -> bool {
    let last = shape.size.faces - 1;
    if last < 4 {
        return false;
    }
    let lost = n.below(last + 1);
    make_faces_one(shape, lost, other(lost, last + 1, n));
    true
}

/// The last face gets the number that is lost.
pub fn make_faces_one(shape: &mut Shape, lost: usize, kept: usize) {
    let last = shape.size.faces - 1;
    rename(shape, Link::Face, lost, kept);
    rename(shape, Link::Face, last, lost);
    let (from, to) = (shape.face_edge(last), shape.face_edge(lost));
    shape.links[to] = shape.links[from];
    shape.links.pop();
    let (from, to) = (shape.plane(last), shape.plane(lost));
    shape.numbers.copy_within(from.., to);
    shape.numbers.truncate(from);
    shape.size.faces = last;
}

/// An edge is doubled, with a face of two half-edges between the old one and the new one.
pub fn ring_of_two(shape: &mut Shape, n: &mut Numbers) -> bool {
    let size = shape.size;
    if size.half_edges > 254 || size.faces > 127 {
        return false;
    }
    let inner = any_edge(shape, n);
    let before = (0..size.half_edges).find(|&edge| shape.get(edge, Link::Next) == inner);
    let before = before.expect("every half-edge is the next of one");
    let [next, _, origin, face] = Link::ALL.map(|link| shape.get(inner, link));
    let (facing, outer) = (size.half_edges, size.half_edges + 1);

    let place = shape.face_edge(0);
    shape.links.splice(place..place, [0; 8]);
    shape.size.half_edges += 2;
    shape.links.push(facing as u8);
    shape.size.faces += 1;
    let plane = shape.plane(face);
    shape.numbers.extend_from_within(plane..plane + 4);

    let end = end(shape, inner);
    for (edge, links) in [
        (inner, [facing, inner ^ 1, origin, size.faces]),
        (facing, [inner, outer, end, size.faces]),
        (outer, [next, facing, origin, face]),
    ] {
        shape.set_all(edge, links);
    }
    shape.set(before, Link::Next, outer);
    shape.store(outer);
    true
}

pub fn vertex_edge_elsewhere(shape: &mut Shape, n: &mut Numbers) -> bool {
    let edge = any_edge(shape, n);
    let vertex = other(shape.get(edge, Link::Origin), shape.size.vertices, n);
    shape.links[vertex] = edge as u8;
    true
}

pub fn vertex_edges_exchanged(shape: &mut Shape, n: &mut Numbers) -> bool {
    let a = n.below(shape.size.vertices);
    let b = other(a, shape.size.vertices, n);
    shape.links.swap(a, b);
    true
}

/// Two vertices become one with two fans; its stored edge finds only one of them.
pub fn two_fans(shape: &mut Shape, n: &mut Numbers) -> bool {
    let last = shape.size.vertices - 1;
    if last < 4 {
        return false;
    }
    let lost = n.below(last + 1);
    let kept = other(lost, last + 1, n);
    let joined = |edge| shape.get(edge, Link::Origin) == lost && end(shape, edge) == kept;
    if (0..shape.size.half_edges).any(joined) {
        return false;
    }
    make_vertices_one(shape, lost, kept);
    true
}

/// The last vertex gets the number that is lost.
pub fn make_vertices_one(shape: &mut Shape, lost: usize, kept: usize) {
    let last = shape.size.vertices - 1;
    rename(shape, Link::Origin, lost, kept);
    rename(shape, Link::Origin, last, lost);
    let lists = [0, 1, 2].map(|axis| {
        let mut list: Vec<f32> =
            shape.numbers[shape.coordinate(axis, 0)..shape.coordinate(axis + 1, 0)].to_vec();
        list[lost] = list[last];
        list.truncate(last.next_multiple_of(4));
        list
    });
    let (lists_from, lists_to) = (shape.coordinate(0, 0), shape.plane(0));
    shape.numbers.splice(lists_from..lists_to, lists.concat());
    shape.links[lost] = shape.links[last];
    shape.links.remove(last);
    shape.size.vertices = last;
}
