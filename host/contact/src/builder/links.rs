//! The rings as half-edges, and the tests that ask nothing of the planes.

use super::{BuildError, Counted};
use crate::shells::lowest;
use crate::{HullSize, Unit};
use std::collections::HashMap;

/// The sizes of a hull lie within these (H1), ends included.
const LEAST_VERTICES: usize = 4;
pub const MOST_VERTICES: usize = 128;
const LEAST_HALF_EDGES: usize = 12;
const MOST_HALF_EDGES: usize = 256;
const LEAST_FACES: usize = 4;
const MOST_FACES: usize = 128;

/// Each item with the one after it, the last with the first.
pub fn sides<T: Copy>(ring: &[T]) -> impl Iterator<Item = (T, T)> + '_ {
    let after = ring.iter().cycle().skip(1);
    ring.iter().copied().zip(after.copied())
}

/// The sizes, where they are within their limits and each ring names three or more different vertices that are there.
pub fn size(unit: Unit, vertices: usize, rings: &[Vec<usize>]) -> Result<HullSize, BuildError> {
    let faces = rings.len();
    within(Counted::Vertices, vertices, LEAST_VERTICES, MOST_VERTICES)?;
    within(Counted::Faces, faces, LEAST_FACES, MOST_FACES)?;
    for (face, ring) in rings.iter().enumerate() {
        corners_fit(face, ring, vertices)?;
    }
    // Four rings of three corners have no fewer than the least, so that what is told of too few is a ring.
    let half_edges = rings.iter().map(Vec::len).sum();
    within(
        Counted::HalfEdges,
        half_edges,
        LEAST_HALF_EDGES,
        MOST_HALF_EDGES,
    )?;
    Ok(HullSize {
        unit: unit.per_metre(),
        vertices,
        half_edges,
        faces,
    })
}

fn within(what: Counted, found: usize, least: usize, most: usize) -> Result<(), BuildError> {
    if (least..=most).contains(&found) {
        return Ok(());
    }
    Err(BuildError::Count {
        what,
        found,
        least,
        most,
    })
}

fn corners_fit(face: usize, ring: &[usize], vertices: usize) -> Result<(), BuildError> {
    let corners = ring.len();
    if corners < 3 {
        return Err(BuildError::ShortRing { face, corners });
    }
    let mut named = [false; MOST_VERTICES];
    for &vertex in ring {
        if vertex >= vertices {
            return Err(BuildError::NoSuchVertex {
                face,
                vertex,
                vertices,
            });
        }
        if std::mem::replace(&mut named[vertex], true) {
            return Err(BuildError::RepeatedVertex { face, vertex });
        }
    }
    Ok(())
}

/// The stored edge of each vertex; next, twin, origin and face of each half-edge; the stored edge of each face.
pub fn list(size: HullSize, rings: &[Vec<usize>]) -> Result<Vec<u8>, BuildError> {
    sides_are_paired(rings)?;
    let numbers = numbered(rings);
    let mut vertex_edges = vec![None; size.vertices];
    let mut half_edges = vec![[0; 4]; size.half_edges];
    let mut face_edges = Vec::new();
    for (face, ring) in rings.iter().enumerate() {
        let edges: Vec<u8> = sides(ring).map(|side| numbers[&side]).collect();
        for ((edge, next), &origin) in sides(&edges).zip(ring) {
            half_edges[usize::from(edge)] = [next, edge ^ 1, origin as u8, face as u8];
            vertex_edges[origin].get_or_insert(edge);
        }
        face_edges.push(edges[0]);
    }
    let stored =
        |(vertex, edge): (usize, Option<u8>)| edge.ok_or(BuildError::UnusedVertex { vertex });
    let vertex_edges = vertex_edges.into_iter().enumerate().map(stored);
    let vertex_edges: Vec<u8> = vertex_edges.collect::<Result<_, _>>()?;
    is_one_shell(size, &half_edges)?;
    Ok([&vertex_edges, half_edges.as_flattened(), &face_edges].concat())
}

/// As H9 asks. A hole is told where each vertex has one fan, as H7 asks: only then the sum of V, H and F tells of holes.
fn is_one_shell(size: HullSize, half_edges: &[[u8; 4]]) -> Result<(), BuildError> {
    let next = |edge: usize| usize::from(half_edges[edge][0]);
    let shells = lowest(size.half_edges, |edge| [next(edge), edge ^ 1]);
    if let Some(&missed) = shells.get(1) {
        // The sides are numbered ring by ring, so that no face before this one is missed.
        return Err(BuildError::Shells {
            shells: shells.len(),
            face: half_edges[missed][3].into(),
        });
    }
    let fans = lowest(size.half_edges, |edge| [next(edge ^ 1)]);
    let HullSize {
        vertices, faces, ..
    } = size;
    let edges = size.half_edges / 2;
    if fans.len() == vertices && vertices + faces != edges + 2 {
        return Err(BuildError::Hole {
            vertices,
            edges,
            faces,
        });
    }
    Ok(())
}

/// Each side of a ring is a side of no other, and its opposite is one.
fn sides_are_paired(rings: &[Vec<usize>]) -> Result<(), BuildError> {
    let mut face_of = HashMap::new();
    let all = || {
        let faces = rings.iter().enumerate();
        faces.flat_map(|(face, ring)| sides(ring).map(move |side| (face, side)))
    };
    for (face, (from, to)) in all() {
        if let Some(first) = face_of.insert((from, to), face) {
            let faces = [first, face];
            return Err(BuildError::SameDirection { from, to, faces });
        }
    }
    match all().find(|&(_, (from, to))| !face_of.contains_key(&(to, from))) {
        None => Ok(()),
        Some((face, (from, to))) => Err(BuildError::OpenEdge { face, from, to }),
    }
}

/// The number of each side, as the rings meet them: even where its opposite was not met before, and then the opposite
/// has the number after it.
fn numbered(rings: &[Vec<usize>]) -> HashMap<(usize, usize), u8> {
    let mut numbers = HashMap::new();
    for (from, to) in rings.iter().flat_map(|ring| sides(ring)) {
        let fresh = numbers.len() as u8;
        if !numbers.contains_key(&(from, to)) {
            numbers.insert((from, to), fresh);
            numbers.insert((to, from), fresh + 1);
        }
    }
    numbers
}

/// As H8 asks: on some axis the rounded difference between the ends of each edge is 1/1024 of the unit's number or more.
pub fn edges_are_long_enough(
    unit: Unit,
    vertices: &[[f32; 3]],
    rings: &[Vec<usize>],
) -> Result<(), BuildError> {
    let least = unit.shortest_edge();
    for (from, to) in rings.iter().flat_map(|ring| sides(ring)) {
        let (a, b) = (vertices[from], vertices[to]);
        let length = (a.iter().zip(b)).fold(0.0, |most: f32, (a, b)| most.max((a - b).abs()));
        if length < least {
            return Err(BuildError::ShortEdge {
                from,
                to,
                length,
                least,
                unit,
            });
        }
    }
    Ok(())
}
