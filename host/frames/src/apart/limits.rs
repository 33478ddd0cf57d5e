//! Pairs whose largest separation is the speculative distance to the float, or one float more or less: by a face of A, by a face of
//! B, by a pair of edges alone. Small numbers are what makes that possible: everything that is near lies at the origin.

use cases::calls::Work;
use cases::pairs::{after, normal, spin, turning, vertex, Pair};
use cases::shapes::kinds::{BOXES, COMPACT, CUBES, TETRAHEDRA, WEDGES};
use cases::shapes::solids::Solid;
use cases::shapes::{Link, Padding, Shape};
use cases::sorts::about;
use cases::sorts::places::{arm, edge_on_edge, Spin};
use cases::Numbers;
use oracle::math_functions::*;
use records::Unit;
use std::f32::consts::TAU;

/// How often B is moved until a pair of edges is where it should be.
const TRIES: usize = 24;

/// A corner of one hull stands on a face of the other, both at the origin, and the plane of the face is moved: its separation is
/// its offset, negated, and all other axes are about 0 or below. The face is A's or B's.
pub fn on_a_face(unit: Unit, n: &mut Numbers) -> Pair {
    let mut any = || COMPACT[n.below(COMPACT.len())].1(n).turned(n);
    let (under, above) = (any(), any());
    let ring = &under.faces[n.below(under.faces.len())];
    let middle = ring.iter().fold([0.0; 3], |sum, &corner| {
        let share = under.corners[corner].map(|x| x / ring.len() as f64);
        [0, 1, 2].map(|axis| sum[axis] + share[axis])
    });
    let mut under = shape(under.moved(middle.map(|x| -x)), unit, n);
    let above = with_corner_at_origin(above, unit, n);
    let offset = |face: usize| under.plane(face) + 3;
    let nearest = |face: &usize| under.numbers[offset(*face)].abs();
    let faces = 0..under.size.faces;
    let face = faces.min_by(|a, b| nearest(a).total_cmp(&nearest(b)));
    let face = face.expect("a hull has faces");
    let (up, plane) = (normal(&under, face), offset(face));
    under.numbers[plane] = -about(unit.speculative_distance())[n.below(3)];
    let vertices = (0..above.size.vertices).map(|number| vertex(&above, number));
    let inward = normalize(vertices.fold(VEC3_ZERO, add));
    let transform = Transform {
        p: VEC3_ZERO,
        q: after(spin(up, TAU * n.fraction()), turning(inward, up)),
    };
    if n.below(2) == 0 {
        let (a, b) = (under, above);
        return Pair { a, b, transform };
    }
    Pair {
        a: above,
        b: under,
        transform: invert_transform(transform),
    }
}

/// An edge across an edge, near a corner of each that lies at its own origin; then B is moved along their axis until the best pair
/// of edges is as far apart as it should be.
pub fn on_edges(unit: Unit, n: &mut Numbers) -> Pair {
    let mut any = || [CUBES, BOXES, TETRAHEDRA, WEDGES][n.below(4)].1(n).turned(n);
    let (a, b) = (any(), any());
    let [a, b] = [a, b].map(|solid| with_corner_at_origin(solid, unit, n));
    let edges = [&a, &b].map(from_origin);
    let mut pair = edge_on_edge(a, b, edges, Spin::Any, n);
    let wanted = about(unit.speculative_distance())[n.below(3)];
    let mut near = |shape: &Shape, edge: usize| {
        let way = normalize(arm(shape, edge));
        mul_sv(wanted * n.between(0.02, 0.3) as f32, way)
    };
    let there = near(&pair.b, edges[1]);
    let mut work = Work::of_pair(&pair);
    let (q, p) = (pair.transform.q, &mut work.transform.p);
    *p = sub(near(&pair.a, edges[0]), rotate_vector(q, there));
    for turn in 0..TRIES {
        let edge = work.search_to_end().edge;
        let missing = wanted - edge.separation;
        if missing == 0.0 || !missing.is_finite() {
            break;
        }
        let p = &mut work.transform.p;
        let by = mul_sv(missing, edge.normal);
        if turn < TRIES / 4 {
            *p = add(*p, by);
            continue;
        }
        // A step that small is lost in some parts: one part goes to its next float.
        let (part, by) = [(&mut p.x, by.x), (&mut p.y, by.y), (&mut p.z, by.z)]
            .into_iter()
            .nth(n.below(3))
            .expect("one of three");
        *part = if by > 0.0 {
            part.next_up()
        } else {
            part.next_down()
        };
    }
    pair.transform.p = work.transform.p;
    pair
}

/// In this unit, with whatever a record leaves open at random but for the padding, which no axis meets.
fn shape(solid: Solid, unit: Unit, n: &mut Numbers) -> Shape {
    let mut shape = Shape::any(&solid, n).in_unit(unit);
    shape.pad(Padding::First);
    shape
}

fn with_corner_at_origin(solid: Solid, unit: Unit, n: &mut Numbers) -> Shape {
    let corner = solid.corners[n.below(solid.corners.len())];
    shape(solid.moved(corner.map(|x| -x)), unit, n)
}

/// The edge whose even half-edge starts at the origin; any edge where there is none.
fn from_origin(shape: &Shape) -> usize {
    let mut edges = (0..shape.size.half_edges).step_by(2);
    let starts = |&edge: &usize| vertex(shape, shape.get(edge, Link::Origin)) == VEC3_ZERO;
    edges.find(starts).unwrap_or(0)
}
