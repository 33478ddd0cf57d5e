//! The same values in the records of the readings and of the Rust text.

use oracle::math_functions as reading;
use records::{Plane, Quat, Transform, Vec3};

pub fn vector(v: Vec3) -> reading::Vec3 {
    reading::Vec3 {
        x: v.x,
        y: v.y,
        z: v.z,
    }
}

pub fn ours(v: reading::Vec3) -> Vec3 {
    Vec3 {
        x: v.x,
        y: v.y,
        z: v.z,
    }
}

pub fn plane(p: Plane) -> reading::Plane {
    reading::Plane {
        normal: vector(p.normal),
        offset: p.offset,
    }
}

pub fn rotation(q: Quat) -> reading::Quat {
    reading::Quat {
        v: vector(q.v),
        s: q.s,
    }
}

pub fn transform(t: Transform) -> reading::Transform {
    reading::Transform {
        p: vector(t.p),
        q: rotation(t.q),
    }
}

pub fn our_transform(t: reading::Transform) -> Transform {
    Transform {
        p: ours(t.p),
        q: Quat {
            v: ours(t.q.v),
            s: t.q.s,
        },
    }
}

#[cfg(rust_text)]
pub use text::*;

#[cfg(rust_text)]
mod text {
    use super::ours;
    use crate::shapes::Shape;
    use oracle::hull::HullData;
    use oracle::open;
    use records::{FeaturePair, HullLists, Point, SatCache};

    pub fn pair(p: FeaturePair) -> open::FeaturePair {
        open::FeaturePair {
            owner1: p.owner1,
            index1: p.index1,
            owner2: p.owner2,
            index2: p.index2,
        }
    }

    pub fn our_pair(p: open::FeaturePair) -> FeaturePair {
        FeaturePair {
            owner1: p.owner1,
            index1: p.index1,
            owner2: p.owner2,
            index2: p.index2,
        }
    }

    /// A point of the copy of the text in which a candidate carries its place.
    pub fn our_contact_point(v: &open::LocalManifoldPoint) -> Point {
        Point {
            position: ours(v.point),
            separation: v.separation,
            pair: our_pair(v.pair),
            place: v.triangle_index.try_into().expect("below 64"),
        }
    }

    pub fn cache(c: SatCache) -> open::SatCache {
        open::SatCache {
            separation: f32::from_bits(c.separation),
            type_: c.kind,
            index_a: c.index_a,
            index_b: c.index_b,
            hit: c.hit,
        }
    }

    pub fn hull(shape: &Shape) -> HullData {
        lent(shape.lent())
    }

    /// Panics where the lists do not fit the sizes.
    pub fn lent(hull: HullLists) -> HullData {
        let size = hull.size;
        oracle::hull(
            hull.numbers,
            hull.links,
            size.vertices,
            size.half_edges,
            size.faces,
        )
    }
}
