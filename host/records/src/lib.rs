//! What a host and the proved library hand each other: records in C's layout with the fields of their Rattle originals
//! in their order, a hull as it is lent and its length unit, the refusals and the rules in words. Nothing is linked.

mod cache;
mod hull;
mod refusal;
mod rule;
mod step;
mod unit;

pub use cache::{CacheKind, SatCache};
pub use hull::{HullLists, HullSize};
pub use refusal::Refusal;
pub use rule::Rule;
pub use step::*;
pub use unit::{Unit, UnknownUnit};

/// The number of these records and of the functions that take them. The library has the number that it was built with
/// (`contact_abi`), and the header has it too (`CONTACT_ABI`); where two of them differ, nothing is called.
pub const ABI: u32 = 7;

/// The most points of a contact, and the least capacity with which a call does any work.
pub const MAX_MANIFOLD_POINTS: usize = 4;

/// The place of a point that is not used: at or above the count of a contact.
pub const UNUSED_PLACE: u8 = 255;

/// Three numbers.
#[derive(Debug, Clone, Copy, PartialEq, Default)]
#[repr(C)]
pub struct Vec3 {
    pub x: f32,
    pub y: f32,
    pub z: f32,
}

impl Vec3 {
    pub const ZERO: Vec3 = Vec3 {
        x: 0.0,
        y: 0.0,
        z: 0.0,
    };
}

/// A rotation; `s` is the scalar part.
#[derive(Debug, Clone, Copy, PartialEq)]
#[repr(C)]
pub struct Quat {
    pub v: Vec3,
    pub s: f32,
}

impl Quat {
    /// No turn.
    pub const IDENTITY: Quat = Quat {
        v: Vec3::ZERO,
        s: 1.0,
    };
}

/// Where B lies in A's frame: turned by `q`, then moved by `p`, which is in the unit of the hulls.
#[derive(Debug, Clone, Copy, PartialEq)]
#[repr(C)]
pub struct Transform {
    pub p: Vec3,
    pub q: Quat,
}

/// The points whose product with the normal is the offset.
#[derive(Debug, Clone, Copy, PartialEq)]
#[repr(C)]
pub struct Plane {
    pub normal: Vec3,
    pub offset: f32,
}

/// The tag of a point: two features, each the half-edge `index` of hull A (owner 0) or hull B (owner 1).
#[derive(Debug, Clone, Copy, PartialEq, Eq, Default)]
#[repr(C)]
pub struct FeaturePair {
    pub owner1: u8,
    pub index1: u8,
    pub owner2: u8,
    pub index2: u8,
}

impl FeaturePair {
    /// The tag of a point that is not used.
    pub const ZERO: FeaturePair = FeaturePair {
        owner1: 0,
        index1: 0,
        owner2: 0,
        index2: 0,
    };
}

/// A point of a contact, in A's frame and in the unit of the hulls; its separation is below zero where they overlap there.
#[derive(Debug, Clone, Copy, PartialEq)]
#[repr(C)]
pub struct Point {
    pub position: Vec3,
    pub separation: f32,
    pub pair: FeaturePair,
    /// Which candidate it was: its place in the list of candidates as it stood before any pick, 0 to 63. Two points of one
    /// contact never have the same, though two may have one tag and one position. An edge point has place 0, and a point
    /// that is not used [`UNUSED_PLACE`].
    pub place: u8,
}

impl Point {
    /// What stands at and above the count of a contact: zero but for its place.
    pub const UNUSED: Point = Point {
        position: Vec3::ZERO,
        separation: 0.0,
        pair: FeaturePair::ZERO,
        place: UNUSED_PLACE,
    };
}

/// The points at and above the count are [`Point::UNUSED`], and the normal is zero where the count is 0.
#[derive(Debug, Clone, Copy, PartialEq)]
#[repr(C)]
pub struct Contact {
    pub points: [Point; MAX_MANIFOLD_POINTS],
    /// From A to B, in A's frame.
    pub normal: Vec3,
    pub count: u8,
}

impl Contact {
    /// No points.
    pub const EMPTY: Contact = Contact {
        points: [Point::UNUSED; MAX_MANIFOLD_POINTS],
        normal: Vec3::ZERO,
        count: 0,
    };

    /// The points below the count.
    #[inline]
    pub fn points(&self) -> &[Point] {
        &self.points[..usize::from(self.count)]
    }
}

/// What a call returns beside the next cache.
#[derive(Debug, Clone, Copy, PartialEq)]
#[repr(C)]
#[must_use]
pub struct Outcome {
    /// 0, or the number of the refusal.
    pub status: u8,
    /// Empty where the call was refused.
    pub contact: Contact,
    /// 1 where the call was accepted, had a capacity of 4 or more and read a cache of a retired type; else 0.
    pub retired: u8,
}

impl Outcome {
    /// Why the call was refused, if it was.
    #[inline]
    pub fn refusal(&self) -> Option<Refusal> {
        Refusal::of_status(self.status)
    }

    /// The contact's points; none where the hulls do not touch and where the call was refused.
    #[inline]
    pub fn points(&self) -> &[Point] {
        self.contact.points()
    }

    /// The contact, or why there is none. Only status 0 is an accepted call: one whose number has no meaning here is refused as
    /// [`Refusal::Unknown`].
    #[inline]
    pub fn accepted(self) -> Result<Contact, Refusal> {
        match self.refusal() {
            None => Ok(self.contact),
            Some(refusal) => Err(refusal),
        }
    }

    /// Whether the cache that was read had a retired type ([`SatCache::RETIRED_TYPES`]), as saved runs still have: it served
    /// as an empty one. Not told of a call that was refused or had a capacity below 4, since both keep the cache as it was.
    #[inline]
    pub fn retired_type_read(&self) -> bool {
        self.retired != 0
    }
}

/// What the question returns whether two hulls are apart.
#[derive(Debug, Clone, Copy, PartialEq, Eq)]
#[repr(C)]
#[must_use]
pub struct Apart {
    /// 0, or the number of the refusal: 1, 2, 17 or 3.
    pub status: u8,
    /// 1 where they are apart; else 0, as with a refusal.
    pub apart: u8,
}

impl Apart {
    /// Why the question was refused, if it was.
    #[inline]
    pub fn refusal(self) -> Option<Refusal> {
        Refusal::of_status(self.status)
    }

    /// Whether they are apart, or why that is not told. Only status 0 is an answer, whatever the other byte says.
    #[inline]
    pub fn accepted(self) -> Result<bool, Refusal> {
        match self.refusal() {
            None => Ok(self.apart != 0),
            Some(refusal) => Err(refusal),
        }
    }
}
