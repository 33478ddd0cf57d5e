//! The edge phase of `compute_separating_axis` in separating_axis.rs, which shows its best pair of edges alone: here every pair
//! that forms an axis.

use crate::constants::PARALLEL_EDGE_TOL;
use crate::hull::{get_hull_edges, get_hull_planes, get_hull_points, HullData, HullHalfEdge};
use crate::math_functions::{
    add, dot, make_matrix_from_quat, max_float, mul_sv, neg, sub, Matrix3, Transform, Vec3,
};

/// An edge in A's frame: the normals of its two faces, its first vertex, and the way from it to the second. Those of B are negated.
struct Edge {
    normals: [Vec3; 2],
    start: Vec3,
    arm: Vec3,
}

/// The separation of every pair of edges that forms an axis, in the text's order. One that comes to a NaN is never the text's best.
pub fn edge_separations(hull_a: &HullData, hull_b: &HullData, xf_b: Transform) -> Vec<f32> {
    const EPS: f32 = -0.0001;
    let squared_tol = PARALLEL_EDGE_TOL * PARALLEL_EDGE_TOL;
    let r = make_matrix_from_quat(xf_b.q);
    let edges_a = edges(hull_a, |normal| normal, |point| point);
    let edges_b = edges(
        hull_b,
        |normal| neg(mul_w(&r, normal)),
        |point| neg(add(mul_w(&r, point), xf_b.p)),
    );

    let mut separations = Vec::new();
    for b in &edges_b {
        let [c, d] = b.normals;
        for a in &edges_a {
            let (cba, dba) = (dot_w(c, a.arm), dot_w(d, a.arm));
            if cba * dba >= EPS {
                continue;
            }
            let (adc, bdc) = (dot_w(a.normals[0], b.arm), dot_w(a.normals[1], b.arm));
            if adc * bdc >= EPS || cba * bdc >= EPS {
                continue;
            }
            if max_float(cba * cba, dba * dba) <= squared_tol * dot(a.arm, a.arm) {
                continue;
            }
            let t = -cba / (dba - cba);
            let across = add(c, mul_sv(t, sub(d, c)));
            let normal = mul_sv(1.0 / dot_w(across, across).sqrt(), across);
            separations.push(-dot_w(add(a.start, b.start), normal));
        }
    }
    separations
}

/// Each edge by its even half-edge.
fn edges(
    hull: &HullData,
    of_normal: impl Fn(Vec3) -> Vec3,
    of_point: impl Fn(Vec3) -> Vec3,
) -> Vec<Edge> {
    let (planes, points) = (get_hull_planes(hull), get_hull_points(hull));
    let edge = |[edge, twin]: &[HullHalfEdge; 2]| {
        let normal = |half: &HullHalfEdge| of_normal(planes[half.face as usize].normal);
        let point = |half: &HullHalfEdge| of_point(points[half.origin as usize]);
        let start = point(edge);
        Edge {
            normals: [normal(edge), normal(twin)],
            start,
            arm: sub(point(twin), start),
        }
    };
    let (edges, _) = get_hull_edges(hull).as_chunks();
    edges.iter().map(edge).collect()
}

/// The sums of `dot3_w`.
fn dot_w(a: Vec3, b: Vec3) -> f32 {
    a.x * b.x + (a.y * b.y + a.z * b.z)
}

fn mul_w(r: &Matrix3, v: Vec3) -> Vec3 {
    let row = |x, y, z| dot_w(Vec3 { x, y, z }, v);
    Vec3 {
        x: row(r.cx.x, r.cy.x, r.cz.x),
        y: row(r.cx.y, r.cy.y, r.cz.y),
        z: row(r.cx.z, r.cy.z, r.cz.z),
    }
}
