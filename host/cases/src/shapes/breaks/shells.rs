//! The breaks of H9, and of H6 and H7 by two shells that share a number.

use super::walks::{make_faces_one, make_vertices_one};
use crate::shapes::kinds::{SHELLS, TETRAHEDRA};
use crate::shapes::Shape;
use crate::Numbers;

/// Any half-edge of either may be the first.
pub fn tetrahedron_beside(shape: &mut Shape, n: &mut Numbers) -> bool {
    let fits = put_tetrahedron(shape, n);
    *shape = shape.with_pairs_renumbered(n);
    fits
}

/// The hull twice, at one place.
pub fn copy_beside(shape: &mut Shape, n: &mut Numbers) -> bool {
    let fits = put(shape, &shape.clone(), n);
    *shape = shape.with_pairs_renumbered(n);
    fits
}

/// Every hull allows it.
pub fn shells_in_its_place(shape: &mut Shape, n: &mut Numbers) -> bool {
    let solid = (SHELLS[n.below(SHELLS.len())].solid)(n);
    *shape = Shape::any(&solid.placed(10.0, n), n).in_unit(shape.unit());
    true
}

/// A second shell, and any vertex of either becomes one with two fans.
pub fn shells_with_one_vertex(shape: &mut Shape, n: &mut Numbers) -> bool {
    let own = shape.size.vertices;
    if !put_tetrahedron(shape, n) {
        return false;
    }
    make_vertices_one(shape, n.below(own), own + n.below(4));
    *shape = shape.with_pairs_renumbered(n);
    true
}

/// A second shell, and any face of either becomes one with two rings.
pub fn shells_with_one_face(shape: &mut Shape, n: &mut Numbers) -> bool {
    let own = shape.size.faces;
    if !put_tetrahedron(shape, n) {
        return false;
    }
    make_faces_one(shape, n.below(own), own + n.below(4));
    *shape = shape.with_pairs_renumbered(n);
    true
}

fn put_tetrahedron(shape: &mut Shape, n: &mut Numbers) -> bool {
    let (_, solid) = TETRAHEDRA;
    let tetrahedron = Shape::any(&solid(n).placed(10.0, n), n).in_unit(shape.unit());
    put(shape, &tetrahedron, n)
}

/// The other one into the same record, where there is room.
fn put(shape: &mut Shape, other: &Shape, n: &mut Numbers) -> bool {
    let (a, b) = (shape.size, other.size);
    let fits = a.vertices + b.vertices <= 128
        && a.half_edges + b.half_edges <= 256
        && a.faces + b.faces <= 128;
    if fits {
        *shape = shape.joined(other);
        shape.pad_any(n);
    }
    fits
}
