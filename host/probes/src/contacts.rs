//! The records of cuts and picks, the doors to them, and those of their functions that need no lists.

use super::{Contact, FeaturePair, HullSize, Places, Plane, Transform, Vec3};
use contact::Hull;

/// The most corners of a polygon.
pub const MAX_CLIP_POINTS: usize = 64;

/// A corner of a polygon, or a candidate, with its distance from the reference face.
#[derive(Debug, Clone, Copy)]
#[repr(C)]
pub struct ClipVertex {
    pub position: Vec3,
    pub separation: f32,
    pub pair: FeaturePair,
}

/// Where corners stand in the lists, and how many there are. Past 64 of them only the number is right.
#[derive(Debug, Clone, Copy)]
#[repr(C)]
pub struct Kept {
    pub from: usize,
    pub count: usize,
}

pub(super) mod linked {
    use super::*;

    extern "C" {
        pub fn probe_clip_polygon(
            corners: *mut Places,
            p: usize,
            n: usize,
            plane: Plane,
            edge: u8,
            reference: Plane,
            q: usize,
        ) -> usize;
        pub fn probe_image_at(
            corners: *const Places,
            p: usize,
            normal: Vec3,
        ) -> ClipVertex;
        pub fn probe_least_separation(
            corners: *const Places,
            from: usize,
            n: usize,
        ) -> f32;
        pub fn probe_touching(unit: usize, count: usize, least: f32) -> bool;
        pub fn probe_reduce_manifold_points(
            unit: usize,
            corners: *const Places,
            from: usize,
            n: usize,
            normal: Vec3,
        ) -> Contact;
        pub fn probe_reduce_rounds(
            unit: usize,
            corners: *const Places,
            from: usize,
            n: usize,
            normal: Vec3,
            rounds: usize,
        ) -> usize;
        pub fn probe_find_incident_face(
            numbers: *const f32,
            numbers_len: usize,
            links: *const u8,
            links_len: usize,
            size: HullSize,
            normal: Vec3,
            vertex: usize,
        ) -> usize;
        pub fn probe_build_polygon(
            numbers: *const f32,
            numbers_len: usize,
            links: *const u8,
            links_len: usize,
            size: HullSize,
            transform: Transform,
            face: usize,
            reference: Plane,
            corners: *mut Places,
        ) -> usize;
        pub fn probe_candidates(
            numbers_a: *const f32,
            numbers_a_len: usize,
            links_a: *const u8,
            links_a_len: usize,
            size_a: HullSize,
            numbers_b: *const f32,
            numbers_b_len: usize,
            links_b: *const u8,
            links_b_len: usize,
            size_b: HullSize,
            transform: Transform,
            face: usize,
            vertex: usize,
            corners: *mut Places,
        ) -> Kept;
    }
}

impl ClipVertex {
    pub const ZERO: ClipVertex = ClipVertex {
        position: Vec3::ZERO,
        separation: 0.0,
        pair: FeaturePair::ZERO,
    };
}

/// A lent hull that the library has accepted. Judged once, it serves any number of calls.
#[derive(Debug, Clone, Copy)]
pub struct Accepted<'a> {
    pub(super) numbers: &'a [f32],
    pub(super) links: &'a [u8],
    pub(super) size: HullSize,
}

impl<'a> Accepted<'a> {
    /// The hull, if it breaks no rule.
    pub fn new(numbers: &'a [f32], links: &'a [u8], size: HullSize) -> Option<Self> {
        let accepted = Hull::lent(size, numbers, links).check().is_ok();
        accepted.then_some(Accepted {
            numbers,
            links,
            size,
        })
    }
}

pub fn touching(unit: usize, count: usize, least: f32) -> bool {
    unsafe { linked::probe_touching(unit, count, least) }
}

/// The most rounds of one call.
pub const MOST_ROUNDS: usize = 65536;

/// Panics where the hull has no such vertex.
pub fn find_incident_face(hull: Accepted, normal: Vec3, vertex: usize) -> usize {
    assert!(vertex < hull.size.vertices);
    unsafe {
        linked::probe_find_incident_face(
            hull.numbers.as_ptr(),
            hull.numbers.len(),
            hull.links.as_ptr(),
            hull.links.len(),
            hull.size,
            normal,
            vertex,
        )
    }
}
