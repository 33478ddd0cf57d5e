//! The length unit of a hull, and the limits that go with it.

use std::fmt;

/// In which unit a hull's lengths are: how many of it make a metre. Both hulls of a call have the same.
///
/// The limits of the rules and the two tolerances of a call are lengths, and so they are larger by the unit's number; sums of
/// squares of normals and quaternions are not.
#[derive(Debug, Clone, Copy, PartialEq, Eq, Hash, Default)]
pub enum Unit {
    #[default]
    Metres,
    Decimetres,
    Centimetres,
    Millimetres,
}

impl Unit {
    pub const ALL: [Unit; 4] = [
        Unit::Metres,
        Unit::Decimetres,
        Unit::Centimetres,
        Unit::Millimetres,
    ];

    /// How many make a metre: 1, 10, 100 or 1000, as [`HullSize`](crate::HullSize) holds it.
    #[inline]
    pub const fn per_metre(self) -> usize {
        match self {
            Unit::Metres => 1,
            Unit::Decimetres => 10,
            Unit::Centimetres => 100,
            Unit::Millimetres => 1000,
        }
    }

    /// The same as a float, which is exact.
    #[inline]
    pub const fn scale(self) -> f32 {
        self.per_metre() as f32
    }

    /// Such as "cm".
    pub const fn symbol(self) -> &'static str {
        match self {
            Unit::Metres => "m",
            Unit::Decimetres => "dm",
            Unit::Centimetres => "cm",
            Unit::Millimetres => "mm",
        }
    }

    /// Coordinates, padding, the box and the positions of transforms lie within this either way. Exact.
    #[inline]
    pub const fn farthest(self) -> f32 {
        4096.0 * self.scale()
    }

    /// Offsets of planes lie within this either way. Exact.
    #[inline]
    pub const fn farthest_offset(self) -> f32 {
        8192.0 * self.scale()
    }

    /// The ends of an edge are this far apart on some axis, or farther. Exact.
    #[inline]
    pub const fn shortest_edge(self) -> f32 {
        self.scale() / 1024.0
    }

    /// A cached axis serves again where the separation differs by less than this: 0.005 m. It is the rounded product, which in
    /// decimetres is not the float nearest 0.05.
    #[inline]
    pub const fn slop(self) -> f32 {
        0.005 * self.scale()
    }

    /// Hulls that are farther apart have no points: 0.02 m, four times the slop.
    #[inline]
    pub const fn speculative_distance(self) -> f32 {
        4.0 * self.slop()
    }
}

impl From<Unit> for usize {
    #[inline]
    fn from(unit: Unit) -> usize {
        unit.per_metre()
    }
}

impl TryFrom<usize> for Unit {
    type Error = UnknownUnit;

    #[inline]
    fn try_from(per_metre: usize) -> Result<Unit, UnknownUnit> {
        match per_metre {
            1 => Ok(Unit::Metres),
            10 => Ok(Unit::Decimetres),
            100 => Ok(Unit::Centimetres),
            1000 => Ok(Unit::Millimetres),
            _ => Err(UnknownUnit { per_metre }),
        }
    }
}

impl fmt::Display for Unit {
    fn fmt(&self, f: &mut fmt::Formatter) -> fmt::Result {
        f.write_str(match self {
            Unit::Metres => "metres",
            Unit::Decimetres => "decimetres",
            Unit::Centimetres => "centimetres",
            Unit::Millimetres => "millimetres",
        })
    }
}

/// A number that is no unit's.
#[derive(Debug, Clone, Copy, PartialEq, Eq)]
pub struct UnknownUnit {
    pub per_metre: usize,
}

impl fmt::Display for UnknownUnit {
    fn fmt(&self, f: &mut fmt::Formatter) -> fmt::Result {
        let per_metre = self.per_metre;
        write!(
            f,
            "the unit is {per_metre} per metre, not 1, 10, 100 or 1000"
        )
    }
}

impl std::error::Error for UnknownUnit {}
