//! Why a hull was not built, and where.

use crate::shells::in_words;
use crate::{Rule, Unit};
use std::fmt;

/// The first thing that is wrong with what a builder was given. Faces and vertices are told by their numbers, from 0 in
/// the order in which they were given, and lengths in the hull's unit. It prints as one sentence.
#[derive(Debug, Clone, Copy, PartialEq)]
pub enum BuildError {
    /// A coordinate is not finite, or beyond [`Unit::farthest`] either way.
    Coordinate {
        vertex: usize,
        /// x, y or z.
        axis: char,
        value: f32,
        unit: Unit,
    },
    /// There are too few or too many of something.
    Count {
        what: Counted,
        found: usize,
        least: usize,
        most: usize,
    },
    /// A ring has fewer than three corners.
    ShortRing { face: usize, corners: usize },
    /// A ring names a vertex that is not there.
    NoSuchVertex {
        face: usize,
        vertex: usize,
        /// How many there are.
        vertices: usize,
    },
    /// A ring names a vertex twice.
    RepeatedVertex { face: usize, vertex: usize },
    /// Two rings go through a side in the same direction.
    SameDirection {
        from: usize,
        to: usize,
        faces: [usize; 2],
    },
    /// A ring goes through a side, and none goes back.
    OpenEdge { face: usize, from: usize, to: usize },
    /// A vertex is in no ring.
    UnusedVertex { vertex: usize },
    /// The rings close more than one shell.
    Shells {
        shells: usize,
        /// The first to which no way across edges leads from face 0.
        face: usize,
    },
    /// There is a hole through the hull, for vertices - edges + faces is not 2.
    Hole {
        vertices: usize,
        edges: usize,
        faces: usize,
    },
    /// On no axis do the ends of an edge differ by [`Unit::shortest_edge`] or more.
    ShortEdge {
        from: usize,
        to: usize,
        /// The greatest difference on an axis.
        length: f32,
        least: f32,
        unit: Unit,
    },
    /// A face's normal cannot be found.
    NoArea { face: usize },
    /// A corner lies below its face's plane, on which the highest corner lies.
    NotFlat {
        face: usize,
        /// The lowest corner.
        vertex: usize,
        highest: usize,
        distance: f32,
        tolerance: f32,
        unit: Unit,
    },
    /// No vertex lies farther than the tolerance from the plane of a face.
    NoVolume {
        face: usize,
        tolerance: f32,
        unit: Unit,
    },
    /// The hull is inside out: a ring, the first such one, is clockwise as seen from outside.
    Clockwise {
        face: usize,
        /// How far the mean of all vertices lies above the face's plane.
        above: f32,
        unit: Unit,
    },
    /// A corner lies inside the line between two others of its ring, which come before and after it.
    FaceNotConvex {
        face: usize,
        vertex: usize,
        from: usize,
        to: usize,
        distance: f32,
        tolerance: f32,
        unit: Unit,
    },
    /// A vertex lies outside a face's plane.
    NotConvex {
        face: usize,
        vertex: usize,
        distance: f32,
        tolerance: f32,
        unit: Unit,
    },
    /// A rule of the library is broken.
    Rule(Rule),
}

/// What there are too few or too many of.
#[derive(Debug, Clone, Copy, PartialEq, Eq)]
pub enum Counted {
    Vertices,
    /// The sides of all rings.
    HalfEdges,
    Faces,
}

impl fmt::Display for Counted {
    fn fmt(&self, f: &mut fmt::Formatter) -> fmt::Result {
        f.write_str(match self {
            Counted::Vertices => "vertices",
            Counted::HalfEdges => "half-edges (the sides of all rings)",
            Counted::Faces => "faces",
        })
    }
}

impl fmt::Display for BuildError {
    fn fmt(&self, f: &mut fmt::Formatter) -> fmt::Result {
        match *self {
            BuildError::Coordinate {
                vertex,
                axis,
                value,
                unit,
            } => write!(
                f,
                "vertex {vertex} has {axis} = {value:?} {m}, and a coordinate is finite and at most {} {m} either way",
                unit.farthest(),
                m = unit.symbol()
            ),
            BuildError::Count {
                what,
                found,
                least,
                most,
            } => write!(
                f,
                "the hull has {found} {what}, and {least} to {most} are allowed"
            ),
            BuildError::ShortRing { face, corners } => write!(
                f,
                "the ring of face {face} has {corners} corners, and 3 is the least"
            ),
            BuildError::NoSuchVertex {
                face,
                vertex,
                vertices,
            } => write!(
                f,
                "the ring of face {face} names vertex {vertex}, and there are {vertices}, numbered from 0"
            ),
            BuildError::RepeatedVertex { face, vertex } => write!(
                f,
                "the ring of face {face} names vertex {vertex} twice: name each corner once, a ring closes by itself"
            ),
            BuildError::SameDirection {
                from,
                to,
                faces: [a, b],
            } => write!(
                f,
                "the rings of faces {a} and {b} both go from vertex {from} to vertex {to}, where neighbours go \
                 opposite ways: turn round the one that is clockwise as seen from outside, or look for a face \
                 given twice"
            ),
            BuildError::OpenEdge { face, from, to } => write!(
                f,
                "the ring of face {face} goes from vertex {from} to vertex {to}, and no ring goes back: add the face \
                 that is missing there, or look for a wrong number"
            ),
            BuildError::UnusedVertex { vertex } => write!(
                f,
                "vertex {vertex} is in no ring: leave it out, or add the faces that meet there"
            ),
            BuildError::Shells { shells, face } => write!(
                f,
                "the faces make {} closed shells, for no way across edges leads from face 0 to face {face}: build a \
                 hull of each shell, or leave out one that is given twice",
                in_words(shells)
            ),
            BuildError::Hole {
                vertices,
                edges,
                faces,
            } => write!(
                f,
                "there is a hole through the hull, for {vertices} vertices - {edges} edges + {faces} faces is {}, and 2 \
                 without a hole: cut it into convex hulls, or look for a wrong number",
                (vertices + faces) as isize - edges as isize
            ),
            BuildError::ShortEdge {
                from,
                to,
                length,
                least,
                unit,
            } => write!(
                f,
                "the edge from vertex {from} to vertex {to} is too short: on no axis are its ends more than \
                 {length:?} {m} apart, and {least:?} {m} is the least; join the two vertices",
                m = unit.symbol()
            ),
            BuildError::NoArea { face } => write!(
                f,
                "face {face} has no area: its corners lie on one line, or its ring crosses itself"
            ),
            BuildError::NotFlat {
                face,
                vertex,
                highest,
                distance,
                tolerance,
                unit,
            } => write!(
                f,
                "face {face} is not flat: its vertex {vertex} lies {distance:?} {m} below its vertex {highest}, and \
                 {tolerance:?} {m} is allowed; cut it into triangles, or allow more by flat_within",
                m = unit.symbol()
            ),
            BuildError::NoVolume {
                face,
                tolerance,
                unit,
            } => write!(
                f,
                "the hull has no volume: every vertex lies within {tolerance:?} {} of the plane of face {face}; move \
                 one out of it, or allow less by flat_within",
                unit.symbol()
            ),
            BuildError::Clockwise { face, above, unit } => write!(
                f,
                "the ring of face {face} is clockwise as seen from outside, for the mean of all vertices lies \
                 {above:?} {} above its plane: turn it round, and with it the others, for the hull is inside out",
                unit.symbol()
            ),
            BuildError::FaceNotConvex {
                face,
                vertex,
                from,
                to,
                distance,
                tolerance,
                unit,
            } => write!(
                f,
                "face {face} is not convex: its vertex {vertex} lies {distance:?} {m} inside the line from its vertex \
                 {from} to its vertex {to}, and {tolerance:?} {m} is allowed; cut it into convex faces",
                m = unit.symbol()
            ),
            BuildError::NotConvex {
                face,
                vertex,
                distance,
                tolerance,
                unit,
            } => write!(
                f,
                "the hull is not convex: vertex {vertex} lies {distance:?} {m} outside the plane of face {face}, and \
                 {tolerance:?} {m} is allowed; cut it into convex hulls, or allow more by flat_within",
                m = unit.symbol()
            ),
            BuildError::Rule(rule) => write!(f, "{rule}"),
        }
    }
}

impl std::error::Error for BuildError {}
