//! The door for other crates to the text's functions, also to those that it keeps inside its crate. What the text has
//! public is passed on; the rest stands here under its own name and only converts.

pub use crate::manifold::clip::{find_incident_face, flip_pair};
pub use crate::manifold::hulls::collide_hulls;
/// The same of the copy in which each candidate, and so each point of a face contact, has its place as `triangle_index`.
pub use crate::manifold::hulls_placed::collide_hulls as collide_hulls_placed;
pub use crate::manifold::simd_scalar::{embed_index_w, min_index_w, min_w, FloatW};
pub use crate::manifold::types::{
    make_feature_pair, FeatureOwner, FeaturePair, LocalManifold, LocalManifoldPoint, SatCache,
    SeparatingFeature,
};

use crate::constants::MAX_MANIFOLD_POINTS;
use crate::hull::HullData;
use crate::manifold::{clip, sat, separating_axis, types};
use crate::math_functions::{Plane, Transform, Vec3};
use crate::quiet;

/// The text's `ClipVertex`.
#[derive(Debug, Clone, Copy, PartialEq, Default)]
pub struct ClipVertex {
    pub position: Vec3,
    pub separation: f32,
    pub pair: FeaturePair,
}

impl From<types::ClipVertex> for ClipVertex {
    fn from(v: types::ClipVertex) -> Self {
        ClipVertex {
            position: v.position,
            separation: v.separation,
            pair: v.pair,
        }
    }
}

impl From<ClipVertex> for types::ClipVertex {
    fn from(v: ClipVertex) -> Self {
        types::ClipVertex {
            position: v.position,
            separation: v.separation,
            pair: v.pair,
        }
    }
}

/// The text's `SeparatingAxis`; an index is -1 where there is none.
#[derive(Debug, Clone, Copy, PartialEq)]
pub struct SeparatingAxis {
    pub normal: Vec3,
    pub separation: f32,
    pub index_a: i32,
    pub index_b: i32,
    pub type_: SeparatingFeature,
}

impl From<types::SeparatingAxis> for SeparatingAxis {
    fn from(axis: types::SeparatingAxis) -> Self {
        SeparatingAxis {
            normal: axis.normal,
            separation: axis.separation,
            index_a: axis.index_a,
            index_b: axis.index_b,
            type_: axis.type_,
        }
    }
}

/// The text's `AxisQuery`.
#[derive(Debug, Clone, Copy, PartialEq)]
pub struct AxisQuery {
    pub face_a: SeparatingAxis,
    pub face_b: SeparatingAxis,
    pub edge: SeparatingAxis,
    pub separated_feature: SeparatingFeature,
}

/// The text's `compute_separating_axis`.
pub fn search(
    hull_a: &HullData,
    hull_b: &HullData,
    b_to_a: Transform,
    early_return: bool,
) -> AxisQuery {
    let query = separating_axis::compute_separating_axis(hull_a, hull_b, b_to_a, early_return);
    AxisQuery {
        face_a: query.face_a.into(),
        face_b: query.face_b.into(),
        edge: query.edge.into(),
        separated_feature: query.separated_feature,
    }
}

/// The text's `clip_polygon` of the whole list into a buffer of 64; `None` where the text panics, which it does on a
/// 65th vertex and on an empty list.
pub fn clip_polygon(
    polygon: &[ClipVertex],
    clip_plane: Plane,
    edge: i32,
    ref_plane: Plane,
) -> Option<Vec<ClipVertex>> {
    let polygon: Vec<types::ClipVertex> = polygon.iter().map(|&v| v.into()).collect();
    quiet(|| {
        let mut out = [types::ClipVertex::default(); types::MAX_CLIP_POINTS];
        let count = polygon.len() as i32;
        let count = clip::clip_polygon(&mut out, &polygon, count, clip_plane, edge, ref_plane);
        first(&out, count)
    })
}

/// The same into a buffer that no cut fills: all that the text puts out. The list is not empty.
pub fn clip_polygon_whole(
    polygon: &[ClipVertex],
    clip_plane: Plane,
    edge: i32,
    ref_plane: Plane,
) -> Vec<ClipVertex> {
    let polygon: Vec<types::ClipVertex> = polygon.iter().map(|&v| v.into()).collect();
    let mut out = vec![types::ClipVertex::default(); 2 * polygon.len()];
    let count = polygon.len() as i32;
    let count = clip::clip_polygon(&mut out, &polygon, count, clip_plane, edge, ref_plane);
    first(&out, count)
}

/// The text's `build_polygon` into a buffer of 64.
pub fn build_polygon(
    transform: Transform,
    hull: &HullData,
    inc_face: i32,
    ref_plane: Plane,
) -> Vec<ClipVertex> {
    let mut out = [types::ClipVertex::default(); types::MAX_CLIP_POINTS];
    let count = clip::build_polygon(&mut out, transform, hull, inc_face, ref_plane);
    first(&out, count)
}

/// The text's `reduce_manifold_points` of the first `count` points, for a contact with this normal and room for four:
/// the points that it keeps, each with the `triangle_index` that it was handed over with.
pub fn reduce_manifold_points(
    normal: Vec3,
    points: &[LocalManifoldPoint],
    count: i32,
) -> Vec<LocalManifoldPoint> {
    let mut manifold = LocalManifold {
        normal,
        ..LocalManifold::default()
    };
    let mut points = points.to_vec();
    sat::reduce_manifold_points(
        &mut manifold,
        MAX_MANIFOLD_POINTS as i32,
        &mut points,
        count,
    );
    manifold.points[..manifold.point_count as usize].to_vec()
}

/// A polygon in the text's own records.
pub struct Prepared {
    vertices: [types::ClipVertex; types::MAX_CLIP_POINTS],
    count: i32,
}

impl Prepared {
    /// Panics where there are more than 64.
    pub fn new(polygon: &[ClipVertex]) -> Self {
        let mut vertices = [types::ClipVertex::default(); types::MAX_CLIP_POINTS];
        for (to, &from) in vertices[..polygon.len()].iter_mut().zip(polygon) {
            *to = from.into();
        }
        let count = polygon.len() as i32;
        Prepared { vertices, count }
    }
}

/// Room for the answers of the text's functions, so that a timed call is the text's own and nothing else.
pub struct Buffers {
    cut: [types::ClipVertex; types::MAX_CLIP_POINTS],
    points: [LocalManifoldPoint; types::MAX_CLIP_POINTS],
    manifold: LocalManifold,
}

impl Default for Buffers {
    fn default() -> Self {
        Buffers {
            cut: [types::ClipVertex::default(); types::MAX_CLIP_POINTS],
            points: [LocalManifoldPoint::default(); types::MAX_CLIP_POINTS],
            manifold: LocalManifold::default(),
        }
    }
}

impl Buffers {
    /// The text's `clip_polygon`: how many it leaves. Panics where the text does.
    #[inline(never)]
    pub fn clip_polygon(
        &mut self,
        polygon: &Prepared,
        clip_plane: Plane,
        edge: i32,
        ref_plane: Plane,
    ) -> i32 {
        let (vertices, count) = (&polygon.vertices, polygon.count);
        clip::clip_polygon(&mut self.cut, vertices, count, clip_plane, edge, ref_plane)
    }

    /// The text's `reduce_manifold_points` of a copy of the points, which it changes: how many it keeps.
    #[inline(never)]
    pub fn reduce_manifold_points(&mut self, normal: Vec3, points: &[LocalManifoldPoint]) -> i32 {
        self.points[..points.len()].copy_from_slice(points);
        self.manifold.normal = normal;
        let (capacity, count) = (MAX_MANIFOLD_POINTS as i32, points.len() as i32);
        sat::reduce_manifold_points(&mut self.manifold, capacity, &mut self.points, count);
        self.manifold.point_count
    }
}

pub(crate) fn first(out: &[types::ClipVertex], count: i32) -> Vec<ClipVertex> {
    out[..count as usize].iter().map(|&v| v.into()).collect()
}
