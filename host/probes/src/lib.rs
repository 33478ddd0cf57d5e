//! Safe calls of the proved layers, one by one, through the static library of the crate `probes`.
//! Each record has the fields of its Rattle original in their order; where a function there requires something, it is
//! tested here.

mod axes;
mod contacts;
mod places;

pub use axes::*;
pub use contacts::*;
pub use places::*;
pub use records::{
    Contact, FeaturePair, HullSize, Plane, Point, Quat, Transform, Unit, Vec3, MAX_MANIFOLD_POINTS,
};

#[derive(Debug, Clone, Copy)]
#[repr(C)]
pub struct Aabb {
    pub lower: Vec3,
    pub upper: Vec3,
}

/// Every helper on two vectors and a number.
#[derive(Debug, Clone, Copy)]
#[repr(C)]
pub struct Vectors {
    pub sum: Vec3,
    pub difference: Vec3,
    pub opposite: Vec3,
    pub size: Vec3,
    pub across: Vec3,
    pub scaled: Vec3,
    pub onward: Vec3,
    pub back: Vec3,
    pub between: Vec3,
    pub unit: Vec3,
    pub along: f32,
    pub square: f32,
    pub least: f32,
    pub greatest: f32,
}

/// A vector turned and carried every way.
#[derive(Debug, Clone, Copy)]
#[repr(C)]
pub struct Rotations {
    pub by_rows: Vec3,
    pub by_columns: Vec3,
    pub turned: Vec3,
    pub turned_back: Vec3,
    pub carried: Vec3,
    pub carried_back: Vec3,
    pub inverse: Transform,
}

/// A plane and a point, a box, and which of its corners lies farther along the point.
#[derive(Debug, Clone, Copy)]
#[repr(C)]
pub struct Shapes {
    pub separation: f32,
    pub through: Plane,
    pub center: Vec3,
    pub extents: Vec3,
    pub farther: usize,
}

/// The three awaited helpers.
#[derive(Debug, Clone, Copy)]
#[repr(C)]
pub struct Lines {
    pub perp: Vec3,
    pub point1: Vec3,
    pub point2: Vec3,
    pub s1: f32,
    pub s2: f32,
    pub within: bool,
}

/// Four lanes.
#[derive(Debug, Clone, Copy)]
#[repr(C)]
pub struct FloatW {
    pub x: f32,
    pub y: f32,
    pub z: f32,
    pub w: f32,
}

/// A flipped pair, or refusal 8 and four zeros.
#[derive(Debug, Clone, Copy, PartialEq, Eq)]
#[repr(C)]
pub struct Flipped {
    pub status: u8,
    pub pair: FeaturePair,
}

/// The lengths that go by the unit.
#[derive(Debug, Clone, Copy)]
#[repr(C)]
pub struct Limits {
    pub slop: f32,
    pub speculative: f32,
    /// The starting support value.
    pub huge: f32,
    /// The unit itself.
    pub units: f32,
    /// Of coordinates, padding, boxes and positions.
    pub coordinate: f32,
    pub offset: f32,
    /// The shortest edge.
    pub edge: f32,
}

mod linked {
    use super::*;

    extern "C" {
        pub fn probe_root_bits(bits: u32) -> u32;
        pub fn probe_root(x: f32) -> f32;
        pub fn probe_vectors(a: Vec3, b: Vec3, s: f32) -> Vectors;
        pub fn probe_rotations(t: Transform, v: Vec3) -> Rotations;
        pub fn probe_shapes(plane: Plane, p: Vec3, b: Aabb) -> Shapes;
        pub fn probe_support_vertex(
            xs: *const f32,
            xs_len: usize,
            ys: *const f32,
            ys_len: usize,
            zs: *const f32,
            zs_len: usize,
            count: usize,
            d: Vec3,
        ) -> usize;
        pub fn probe_lines(p1: Vec3, d1: Vec3, p2: Vec3, d2: Vec3) -> Lines;
        pub fn probe_embed_index_w(value: FloatW, base: u32) -> FloatW;
        pub fn probe_min_w(a: FloatW, b: FloatW) -> FloatW;
        pub fn probe_min_index_w(a: FloatW) -> u32;
        pub fn probe_min_int(a: usize, b: usize) -> usize;
        pub fn probe_edge_pair(index_a: u8, index_b: u8) -> FeaturePair;
        pub fn probe_flip_pair(pair: FeaturePair) -> Flipped;
        pub fn probe_limits(unit: usize) -> Limits;
        pub fn probe_transform_accepted(unit: usize, t: Transform) -> bool;
    }
}

/// The root of the float with these bits, as bits.
pub fn root_bits(bits: u32) -> u32 {
    unsafe { linked::probe_root_bits(bits) }
}

#[inline]
pub fn root(x: f32) -> f32 {
    unsafe { linked::probe_root(x) }
}

pub fn vectors(a: Vec3, b: Vec3, s: f32) -> Vectors {
    unsafe { linked::probe_vectors(a, b, s) }
}

pub fn rotations(t: Transform, v: Vec3) -> Rotations {
    unsafe { linked::probe_rotations(t, v) }
}

pub fn shapes(plane: Plane, p: Vec3, b: Aabb) -> Shapes {
    unsafe { linked::probe_shapes(plane, p, b) }
}

/// The first of the `count` vertices that lies farthest along `d`. Panics where there is none or a list is too short.
pub fn support_vertex(xs: &[f32], ys: &[f32], zs: &[f32], count: usize, d: Vec3) -> usize {
    assert!(0 < count && count <= xs.len() && count <= ys.len() && count <= zs.len());
    unsafe {
        linked::probe_support_vertex(
            xs.as_ptr(),
            xs.len(),
            ys.as_ptr(),
            ys.len(),
            zs.as_ptr(),
            zs.len(),
            count,
            d,
        )
    }
}

pub fn lines(p1: Vec3, d1: Vec3, p2: Vec3, d2: Vec3) -> Lines {
    unsafe { linked::probe_lines(p1, d1, p2, d2) }
}

/// Panics where a lane is not finite or a number is above 127.
pub fn embed_index_w(value: FloatW, base: u32) -> FloatW {
    assert!(finite(value) && base <= 124);
    unsafe { linked::probe_embed_index_w(value, base) }
}

/// Panics where a lane is not finite.
pub fn min_w(a: FloatW, b: FloatW) -> FloatW {
    assert!(finite(a) && finite(b));
    unsafe { linked::probe_min_w(a, b) }
}

/// Panics where a lane is not finite.
pub fn min_index_w(a: FloatW) -> u32 {
    assert!(finite(a));
    unsafe { linked::probe_min_index_w(a) }
}

pub fn min_int(a: usize, b: usize) -> usize {
    unsafe { linked::probe_min_int(a, b) }
}

/// The tag of a point where edge `index_a` of A crosses edge `index_b` of B.
pub fn edge_pair(index_a: u8, index_b: u8) -> FeaturePair {
    unsafe { linked::probe_edge_pair(index_a, index_b) }
}

pub fn flip_pair(pair: FeaturePair) -> Flipped {
    unsafe { linked::probe_flip_pair(pair) }
}

/// A number that is no unit acts as 1, here and wherever a unit is handed over.
pub fn limits(unit: usize) -> Limits {
    unsafe { linked::probe_limits(unit) }
}

pub fn transform_accepted(unit: usize, t: Transform) -> bool {
    unsafe { linked::probe_transform_accepted(unit, t) }
}

fn finite(v: FloatW) -> bool {
    v.x.is_finite() && v.y.is_finite() && v.z.is_finite() && v.w.is_finite()
}
