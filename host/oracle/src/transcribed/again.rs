//! How `collide_hulls` in hulls.rs tries the cached axis again, and how far it gets.

use super::FaceCuts;
use crate::constants::speculative_distance;
use crate::hull::{
    find_hull_support_vertex, get_hull_edges, get_hull_planes, get_hull_points, HullData,
};
use crate::manifold::types::{SatCache, SeparatingFeature};
use crate::math_functions::*;
use crate::quiet;

/// What a cached axis comes to.
#[derive(Debug, Clone, Copy, PartialEq)]
pub struct Again {
    /// Of a pair of edges.
    pub crossing: Option<Crossing>,
    /// Along the axis; none where a test of a pair of edges fails.
    pub separation: Option<f32>,
    pub end: End,
}

#[derive(Debug, Clone, Copy, PartialEq)]
pub enum End {
    /// The first, the second or the third test of signs fails.
    Signs(usize),
    Parallel,
    Apart,
    /// A cut puts out a 65th vertex, where the text panics.
    Full,
    /// No contact comes of it.
    Missed,
    /// A contact, and its separation.
    Touching(f32),
}

/// What the tests of a pair of edges look at.
#[derive(Debug, Clone, Copy, PartialEq)]
pub struct Crossing {
    /// The first two are to be below zero, the third above.
    pub signs: [f32; 3],
    pub width: f32,
    /// The least width that is not near parallel.
    pub tolerance: f32,
}

/// Of a cache whose type is a face or a pair of edges, and whose numbers are in range.
pub fn again(
    hull_a: &HullData,
    hull_b: &HullData,
    transform_b_to_a: Transform,
    cache: &SatCache,
) -> Option<Again> {
    match cache.type_ {
        t if t == SeparatingFeature::FaceAxisA as u8 => {
            Some(face_a(hull_a, hull_b, transform_b_to_a, cache))
        }
        t if t == SeparatingFeature::FaceAxisB as u8 => {
            Some(face_b(hull_a, hull_b, transform_b_to_a, cache))
        }
        t if t == SeparatingFeature::EdgePairAxis as u8 => {
            Some(edge_pair(hull_a, hull_b, transform_b_to_a, cache))
        }
        _ => None,
    }
}

/// The vertex of B that reaches deepest below this face of A, and how far it lies above the face's plane.
pub(super) fn support_of_face_a(
    hull_a: &HullData,
    hull_b: &HullData,
    transform_b_to_a: Transform,
    face: u8,
) -> (i32, f32) {
    let plane = get_hull_planes(hull_a)[face as usize];
    let search_direction_in_b = neg(inv_rotate_vector(transform_b_to_a.q, plane.normal));
    let vertex_index = find_hull_support_vertex(hull_b, search_direction_in_b);
    let points_b = get_hull_points(hull_b);
    let support = transform_point(transform_b_to_a, points_b[vertex_index as usize]);
    (vertex_index, plane_separation(plane, support))
}

fn face_a(
    hull_a: &HullData,
    hull_b: &HullData,
    transform_b_to_a: Transform,
    cache: &SatCache,
) -> Again {
    let (vertex_index, separation) =
        support_of_face_a(hull_a, hull_b, transform_b_to_a, cache.index_a);
    let face = cache.index_a as i32;
    face_again(separation, || {
        let mut cuts = FaceCuts::<64>::default();
        cuts.cut(hull_a, hull_b, transform_b_to_a, face, vertex_index);
        cuts
    })
}

/// The vertex of A that reaches deepest below this face of B, and how far it lies above the face's plane.
pub(super) fn support_of_face_b(
    hull_a: &HullData,
    hull_b: &HullData,
    transform_b_to_a: Transform,
    face: u8,
) -> (i32, f32) {
    let plane = get_hull_planes(hull_b)[face as usize];
    let search_direction_in_a = neg(rotate_vector(transform_b_to_a.q, plane.normal));
    let vertex_index = find_hull_support_vertex(hull_a, search_direction_in_a);
    let points_a = get_hull_points(hull_a);
    let support = inv_transform_point(transform_b_to_a, points_a[vertex_index as usize]);
    (vertex_index, plane_separation(plane, support))
}

fn face_b(
    hull_a: &HullData,
    hull_b: &HullData,
    transform_b_to_a: Transform,
    cache: &SatCache,
) -> Again {
    let (vertex_index, separation) =
        support_of_face_b(hull_a, hull_b, transform_b_to_a, cache.index_b);
    let face = cache.index_b as i32;
    let transform_a_to_b = invert_transform(transform_b_to_a);
    face_again(separation, || {
        let mut cuts = FaceCuts::<64>::default();
        cuts.cut(hull_b, hull_a, transform_a_to_b, face, vertex_index);
        cuts
    })
}

fn face_again(
    separation: f32,
    cut: impl FnOnce() -> FaceCuts<64> + std::panic::UnwindSafe,
) -> Again {
    let end = if separation >= speculative_distance() {
        End::Apart
    } else {
        quiet(cut).map_or(End::Full, |cuts| touching(&cuts))
    };
    Again {
        crossing: None,
        separation: Some(separation),
        end,
    }
}

fn touching(cuts: &FaceCuts<64>) -> End {
    if cuts.point_count < 3 {
        return End::Missed;
    }
    let mut min_separation = f32::MAX;
    for clip_point in cuts.left() {
        min_separation = min_float(min_separation, clip_point.separation);
    }
    if min_separation >= speculative_distance() {
        return End::Missed;
    }
    End::Touching(min_separation)
}

fn edge_pair(
    hull_a: &HullData,
    hull_b: &HullData,
    transform_b_to_a: Transform,
    cache: &SatCache,
) -> Again {
    let edges_a = get_hull_edges(hull_a);
    let planes_a = get_hull_planes(hull_a);
    let points_a = get_hull_points(hull_a);
    let edges_b = get_hull_edges(hull_b);
    let planes_b = get_hull_planes(hull_b);
    let points_b = get_hull_points(hull_b);

    let index_a = cache.index_a as usize;
    let edge1 = &edges_a[index_a];
    let twin1 = &edges_a[index_a + 1];

    let p_a = points_a[edge1.origin as usize];
    let q_a = points_a[twin1.origin as usize];
    let e_a = sub(q_a, p_a);

    let u_a = planes_a[edge1.face as usize].normal;
    let v_a = planes_a[twin1.face as usize].normal;

    let index_b = cache.index_b as usize;
    let edge2 = &edges_b[index_b];
    let twin2 = &edges_b[index_b + 1];

    let p_b = transform_point(transform_b_to_a, points_b[edge2.origin as usize]);
    let q_b = transform_point(transform_b_to_a, points_b[twin2.origin as usize]);
    let e_b = sub(q_b, p_b);

    let u_b = rotate_vector(transform_b_to_a.q, planes_b[edge2.face as usize].normal);
    let v_b = rotate_vector(transform_b_to_a.q, planes_b[twin2.face as usize].normal);

    let cba = dot(u_b, e_a);
    let dba = dot(v_b, e_a);
    let adc = -dot(u_a, e_b);
    let bdc = -dot(v_a, e_b);

    let signs = [cba * dba, adc * bdc, cba * bdc];
    let squared_tolerance = 0.005 * 0.005;
    let crossing = Crossing {
        signs,
        width: max_float(cba * cba, dba * dba),
        tolerance: squared_tolerance * length_squared(e_a),
    };
    let passed = [signs[0] < 0.0, signs[1] < 0.0, signs[2] > 0.0];
    let failed = passed.iter().position(|&passed| !passed);
    let fails = |end| Again {
        crossing: Some(crossing),
        separation: None,
        end,
    };
    if let Some(test) = failed {
        return fails(End::Signs(test));
    }
    if crossing.width < crossing.tolerance {
        return fails(End::Parallel);
    }

    let t = cba / (cba - dba);
    let mut axis = lerp(u_b, v_b, t);
    axis = normalize(axis);
    let separation = dot(axis, sub(q_a, q_b));

    let end = if separation > speculative_distance() {
        End::Apart
    } else {
        let result = line_distance(p_a, e_a, p_b, e_b);
        if is_within_segments(&result) {
            End::Touching(dot(neg(axis), sub(result.point2, result.point1)))
        } else {
            End::Missed
        }
    };
    Again {
        crossing: Some(crossing),
        separation: Some(separation),
        end,
    }
}
