//! `find_incident_face` and `build_polygon` beside the text's, on good hulls of every sort.

use super::polygons::{any_plane, direction};
use crate::hold::polygon_is;
use cases::pairs::{long_rings, normal, ring, vertex};
use cases::shapes::kinds::{Kind, COMPACT, STRETCHED};
use cases::shapes::{Link, Shape};
use cases::{convert, inputs, met, one_in, Numbers, Tally};
use oracle::hull::HullData;
use oracle::math_functions::*;
use oracle::{open, quiet};
use probes::{ClipVertex, Places};
use runs::{accepted, corners};

/// Normals for each vertex.
const NORMALS: usize = 12;

#[derive(Default)]
struct Met {
    edge_ties: u64,
    face_ties: u64,
    without_edge: u64,
    long: u64,
    longest: u64,
}

pub fn run(n: &mut Numbers, count: usize) -> bool {
    let (mut incident, mut built) = (Tally::default(), Tally::default());
    let mut m = Met::default();
    let long: Kind = ("rings longer than 64", long_rings);
    for (_, solid) in COMPACT.into_iter().chain(STRETCHED).chain([long]) {
        for i in 0..count.div_ceil(400) {
            let reach = [0.0, 10.0, 1000.0][i % 3];
            let shape = Shape::any(&solid(n).placed(reach, n), n);
            let hull = convert::hull(&shape);
            incident_faces(&mut incident, &mut m, &shape, &hull, n);
            polygons(&mut built, &mut m, &shape, &hull, n);
        }
    }
    let least = one_in(100, count);
    incident.report("incident faces")
        & met(&[
            ("several edges that lie equally flat", m.edge_ties, least),
            ("two faces that look equally far down", m.face_ties, least),
            ("no edge below the largest float", m.without_edge, least),
        ])
        & built.report("faces as polygons")
        & met(&[
            ("rings of 64", m.long, one_in(1000, count)),
            ("longer rings", m.longest, one_in(1000, count)),
        ])
}

fn incident_faces(t: &mut Tally, m: &mut Met, shape: &Shape, hull: &HullData, n: &mut Numbers) {
    let lent = accepted(shape);
    for number in 0..shape.size.vertices {
        for _ in 0..NORMALS {
            let along = any_normal(shape, number, n);
            let ours = probes::find_incident_face(lent, convert::ours(along), number);
            let flattest = flattest(shape, number, along);
            // The text indexes its edges with -1 where no edge is below the largest float; ours takes the stored one.
            let theirs = quiet(|| open::find_incident_face(hull, along, number as i32) as usize);
            let wanted =
                theirs.unwrap_or_else(|| lower(shape, shape.links[number].into(), along).0);
            let equal = ours == wanted && theirs.is_some() != flattest.is_empty();
            t.compare(equal, || {
                format!("incident face at {number} for {along:?}: {ours}, {theirs:?}: {shape:?}")
            });
            m.without_edge += u64::from(theirs.is_none());
            m.edge_ties += u64::from(flattest.len() > 1);
            if let Some(&edge) = flattest.first() {
                m.face_ties += u64::from(lower(shape, edge, along).1);
            }
        }
    }
}

/// The half-edges round a vertex that lie least along the normal; none where none lies below the largest float.
fn flattest(shape: &Shape, number: usize, along: Vec3) -> Vec<usize> {
    let first: usize = shape.links[number].into();
    let (mut edge, mut least, mut list) = (first, f32::MAX, Vec::new());
    loop {
        let arm = normalize(arm(shape, edge));
        let projection = abs_float(dot(arm, along));
        if projection < least {
            least = projection;
            list.clear();
        }
        if projection == least && least < f32::MAX {
            list.push(edge);
        }
        edge = shape.get(edge ^ 1, Link::Next);
        if edge == first {
            return list;
        }
    }
}

/// Of the faces beside a half-edge the one that looks farther down, the twin's at a tie; and whether it is a tie.
fn lower(shape: &Shape, edge: usize, along: Vec3) -> (usize, bool) {
    let faces = [edge, edge ^ 1].map(|e| shape.get(e, Link::Face));
    let [first, second] = faces.map(|face| dot(normal(shape, face), along));
    let face = if first < second { faces[0] } else { faces[1] };
    (face, first == second)
}

fn arm(shape: &Shape, edge: usize) -> Vec3 {
    let end = |e| vertex(shape, shape.get(e, Link::Origin));
    sub(end(edge ^ 1), end(edge))
}

/// Any way, along a face or an edge of the hull, across two edges, along or across the faces beside an edge, or zero.
fn any_normal(shape: &Shape, number: usize, n: &mut Numbers) -> Vec3 {
    let mut edge: usize = shape.links[number].into();
    for _ in 0..n.below(4) {
        edge = shape.get(edge ^ 1, Link::Next);
    }
    let other = n.below(shape.size.half_edges);
    let beside = |e| normal(shape, shape.get(e, Link::Face));
    let along = match n.below(10) {
        0 | 1 => return convert::vector(direction(n)),
        2 => return convert::vector(inputs::vector(n)),
        3 => normal(shape, n.below(shape.size.faces)),
        4 => beside(edge),
        5 => normalize(arm(shape, edge)),
        6 => normalize(cross(arm(shape, edge), arm(shape, other))),
        7 => add(beside(edge), beside(edge ^ 1)),
        8 => sub(beside(edge), beside(other)),
        _ => VEC3_ZERO,
    };
    if n.below(2) == 0 {
        along
    } else {
        neg(along)
    }
}

fn polygons(t: &mut Tally, m: &mut Met, shape: &Shape, hull: &HullData, n: &mut Numbers) {
    let lent = accepted(shape);
    for face in 0..shape.size.faces {
        let length = ring(shape, face).len();
        m.long += u64::from(length == 64);
        m.longest += u64::from(length > 64);
        for _ in 0..4 {
            let (transform, reference) = (inputs::transform(n), any_plane(n));
            let mut ours = Places::default();
            let count = ours.build_polygon(lent, transform, face, reference);
            let to = convert::transform(transform);
            let theirs = open::build_polygon(to, hull, face as i32, convert::plane(reference));
            let theirs: Vec<ClipVertex> = theirs.iter().map(corners::our_corner).collect();
            let equal = count == theirs.len() && polygon_is(&ours, 0, &theirs);
            t.compare(equal, || {
                format!(
                    "face {face} by {transform:?}, {reference:?}: {ours:?}, {theirs:?}: {shape:?}"
                )
            });
        }
    }
}
