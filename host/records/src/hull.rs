//! A hull as it is lent: two lists, its unit and three sizes.

use crate::{Unit, UnknownUnit};

/// The length unit of a hull, and how many vertices, half-edges and faces it has.
#[derive(Debug, Clone, Copy, PartialEq, Eq)]
#[repr(C)]
pub struct HullSize {
    /// How many make a metre: 1, 10, 100 or 1000 ([`Unit::per_metre`]); any other number breaks H1.
    pub unit: usize,
    pub vertices: usize,
    pub half_edges: usize,
    pub faces: usize,
}

impl HullSize {
    /// Its unit, where it is one.
    #[inline]
    pub fn known_unit(self) -> Result<Unit, UnknownUnit> {
        self.unit.try_into()
    }

    /// How many numbers such a hull has: its box, three lists padded to a multiple of four, four a face. None where
    /// that is more than a `usize` holds.
    #[inline]
    pub fn numbers(self) -> Option<usize> {
        let lanes = self.vertices.checked_next_multiple_of(4)?;
        let lists = lanes.checked_mul(3)?;
        lists
            .checked_add(self.faces.checked_mul(4)?)?
            .checked_add(6)
    }

    /// How many links such a hull has: one a vertex, four a half-edge, one a face. None where that is more than a
    /// `usize` holds.
    #[inline]
    pub fn links(self) -> Option<usize> {
        let of_edges = self.half_edges.checked_mul(4)?;
        of_edges.checked_add(self.vertices)?.checked_add(self.faces)
    }
}

/// A hull that a call is lent, whatever its lists and sizes are.
///
/// `numbers`: box low x, y, z; box high x, y, z; the x list, the y list, the z list, each padded to a multiple of four;
/// then for each face its normal x, y, z and its offset. `links`: the stored edge of each vertex; next, twin, origin and
/// face of each half-edge; the stored edge of each face. All but the normals are lengths in the hull's unit.
#[derive(Debug, Clone, Copy)]
pub struct HullLists<'a> {
    pub numbers: &'a [f32],
    pub links: &'a [u8],
    pub size: HullSize,
}
