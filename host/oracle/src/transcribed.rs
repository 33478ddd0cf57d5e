//! Parts of hulls.rs that stand inside its functions and so have no door, transcribed line by line over the text's own
//! functions: here the cuts of `build_face_a_contact` and so the candidates of a contact, in `again` the cached axis of
//! `collide_hulls`; and in `edges` every pair of edges of the search, of which the text shows the best.

use crate::hull::{get_hull_edges, get_hull_faces, get_hull_planes, get_hull_points, HullData};
use crate::manifold::clip::{build_polygon, clip_polygon, find_incident_face};
use crate::manifold::types::{ClipVertex, SatCache, SeparatingFeature, MAX_CLIP_POINTS};
use crate::math_functions::{
    cross, inv_rotate_vector, invert_transform, make_plane_from_normal_and_point, normalize, sub,
    Transform,
};
use crate::open;

pub use again::{again, Again, Crossing, End};
pub use edges::edge_separations;

mod again;
mod edges;

/// The text's two buffers. It has them with room for 64; with room for 128 no cut fills one, and what a full cut puts out can
/// be read.
pub struct FaceCuts<const ROOM: usize> {
    buffer1: [ClipVertex; ROOM],
    buffer2: [ClipVertex; ROOM],
    input_is_buffer1: bool,
    point_count: i32,
}

impl<const ROOM: usize> Default for FaceCuts<ROOM> {
    fn default() -> Self {
        FaceCuts {
            buffer1: [ClipVertex::default(); ROOM],
            buffer2: [ClipVertex::default(); ROOM],
            input_is_buffer1: true,
            point_count: 0,
        }
    }
}

impl<const ROOM: usize> FaceCuts<ROOM> {
    /// The incident face of B at this vertex, cut by the sides of this face of A: how many corners the last cut leaves.
    /// Fewer than three or more than 64 end it. Panics where the text does.
    #[inline(never)]
    pub fn cut(
        &mut self,
        hull_a: &HullData,
        hull_b: &HullData,
        transform_b_to_a: Transform,
        ref_face: i32,
        vertex: i32,
    ) -> i32 {
        let faces_a = get_hull_faces(hull_a);
        let edges_a = get_hull_edges(hull_a);
        let planes_a = get_hull_planes(hull_a);
        let points_a = get_hull_points(hull_a);

        let ref_plane = planes_a[ref_face as usize];

        let ref_normal_in_b = inv_rotate_vector(transform_b_to_a.q, ref_plane.normal);
        let inc_face = find_incident_face(hull_b, ref_normal_in_b, vertex);

        *self = FaceCuts::default();
        let buffer1 = &mut self.buffer1;
        let buffer2 = &mut self.buffer2;
        let mut point_count = build_polygon(buffer1, transform_b_to_a, hull_b, inc_face, ref_plane);
        let mut input_is_buffer1 = true;

        let face = &faces_a[ref_face as usize];
        let mut edge_index = face.edge as i32;

        loop {
            let edge = &edges_a[edge_index as usize];
            let next_edge_index = edge.next as i32;
            let next = &edges_a[next_edge_index as usize];
            let vertex1 = points_a[edge.origin as usize];
            let vertex2 = points_a[next.origin as usize];
            let tangent = normalize(sub(vertex2, vertex1));
            let binormal = cross(tangent, ref_plane.normal);
            let plane = make_plane_from_normal_and_point(binormal, vertex1);

            point_count = if input_is_buffer1 {
                clip_polygon(buffer2, buffer1, point_count, plane, edge_index, ref_plane)
            } else {
                clip_polygon(buffer1, buffer2, point_count, plane, edge_index, ref_plane)
            };
            input_is_buffer1 = !input_is_buffer1;

            if point_count < 3 || point_count > MAX_CLIP_POINTS as i32 {
                break;
            }

            edge_index = next_edge_index;
            if edge_index == face.edge as i32 {
                break;
            }
        }

        self.input_is_buffer1 = input_is_buffer1;
        self.point_count = point_count;
        point_count
    }

    /// What the last cut put out.
    pub fn left(&self) -> Vec<open::ClipVertex> {
        let input = if self.input_is_buffer1 {
            &self.buffer1
        } else {
            &self.buffer2
        };
        open::first(input, self.point_count)
    }
}

/// The candidates of the contact of a call that left this cache and has points: none where the axis is no face's. They lie in
/// the frame of the hull that has the face, whose tags name it as A.
pub fn candidates(
    hull_a: &HullData,
    hull_b: &HullData,
    transform_b_to_a: Transform,
    next: &SatCache,
) -> Vec<open::ClipVertex> {
    // A hit keeps the numbers of the call before: its vertex was found anew.
    let hit = next.hit == 1;
    let mut cuts = FaceCuts::<64>::default();
    if next.type_ == SeparatingFeature::FaceAxisA as u8 {
        let vertex = match hit {
            true => again::support_of_face_a(hull_a, hull_b, transform_b_to_a, next.index_a).0,
            false => next.index_b.into(),
        };
        let face = next.index_a.into();
        cuts.cut(hull_a, hull_b, transform_b_to_a, face, vertex);
    } else if next.type_ == SeparatingFeature::FaceAxisB as u8 {
        let vertex = match hit {
            true => again::support_of_face_b(hull_a, hull_b, transform_b_to_a, next.index_b).0,
            false => next.index_a.into(),
        };
        let (face, transform_a_to_b) = (next.index_b.into(), invert_transform(transform_b_to_a));
        cuts.cut(hull_b, hull_a, transform_a_to_b, face, vertex);
    }
    cuts.left()
}
