//! The axis search.

use super::{transform_accepted, Accepted, HullSize, Transform, Unit, Vec3};

/// One axis: its normal in A's frame from A to B, the separation along it, and the numbers of what it joins. For face A
/// these are the face and B's support vertex, for face B A's support vertex and the face, for an edge pair two
/// half-edges.
#[derive(Debug, Clone, Copy)]
#[repr(C)]
pub struct Axis {
    pub normal: Vec3,
    pub separation: f32,
    pub index_a: u8,
    pub index_b: u8,
}

/// The answer of the search; what a case does not have is zero.
#[derive(Debug, Clone, Copy)]
#[repr(C)]
pub struct Searched {
    /// Whether the hulls are apart; else both faces were found.
    pub apart: bool,
    /// Where apart: 2 along a face of A, 3 along a face of B, 4 along a pair of edges.
    pub kind: u8,
    /// Where found: whether there is an edge pair.
    pub pair: bool,
    /// Where apart: the axis's separation and numbers.
    pub separation: f32,
    pub index_a: u8,
    pub index_b: u8,
    /// Where found.
    pub face_a: Axis,
    pub face_b: Axis,
    /// Where there is an edge pair.
    pub edge: Axis,
}

mod linked {
    use super::*;

    extern "C" {
        pub fn probe_compute_separating_axis(
            numbers_a: *const f32,
            numbers_a_len: usize,
            links_a: *const u8,
            links_a_len: usize,
            size_a: HullSize,
            numbers_b: *const f32,
            numbers_b_len: usize,
            links_b: *const u8,
            links_b_len: usize,
            size_b: HullSize,
            transform: Transform,
        ) -> Searched;
    }
}

/// A transform that the library has accepted between hulls of this unit. Judged once, it serves any number of calls.
#[derive(Debug, Clone, Copy)]
pub struct Placed {
    unit: usize,
    transform: Transform,
}

impl Placed {
    /// Panics where the transform breaks its rule.
    pub fn new(unit: Unit, transform: Transform) -> Self {
        let unit = unit.per_metre();
        assert!(
            transform_accepted(unit, transform),
            "the transform is not an accepted one: {transform:?}"
        );
        Placed { unit, transform }
    }
}

/// The search of an axis between two hulls, B placed in A's frame. It stops at the first new best strictly above the
/// speculative distance. Panics where the units differ.
#[inline]
pub fn compute_separating_axis(a: Accepted, b: Accepted, placed: Placed) -> Searched {
    assert!(a.size.unit == placed.unit && b.size.unit == placed.unit);
    unsafe {
        linked::probe_compute_separating_axis(
            a.numbers.as_ptr(),
            a.numbers.len(),
            a.links.as_ptr(),
            a.links.len(),
            a.size,
            b.numbers.as_ptr(),
            b.numbers.len(),
            b.links.as_ptr(),
            b.links.len(),
            b.size,
            placed.transform,
        )
    }
}
