//! Makes a hull from its vertices and a ring of vertex numbers for each face: links, planes and box are worked out
//! here, and what is wrong is told with its place.
//!
//! This is a convenience of the host and is NOT proved, but what it hands out has passed the library's proved
//! validator, which does not ask that a hull is convex and its faces are flat: these are the builder's own tests.

use crate::{Hull, HullSize, Unit};
use std::f64::consts::TAU;
use std::iter::repeat_n;

mod error;
mod links;
mod planes;

pub use error::{BuildError, Counted};

use planes::{Bounded, Plane};

/// How far a corner may lie from its face's plane, and a vertex outside another face, in metres, where
/// [`HullBuilder::flat_within`] says nothing else: half a millimetre, a tenth of the contact slop.
pub const FLAT_TOLERANCE: f32 = 0.0005;

/// Vertices, and for each face a ring of their numbers.
///
/// This is a convenience of the host and is NOT proved, but what it hands out has passed the library's proved
/// validator, which does not ask that a hull is convex and its faces are flat: these are the builder's own tests.
///
/// ```
/// use contact::{collide, HullBuilder, Quat, SatCache, Transform, Vec3};
///
/// let corner = HullBuilder::new()
///     .vertices([[0.0, 0.0, 0.0], [1.0, 0.0, 0.0], [0.0, 1.0, 0.0], [0.0, 0.0, 1.0]])
///     .face([0, 2, 1]) // counter-clockwise as seen from outside
///     .face([0, 1, 3])
///     .face([0, 3, 2])
///     .face([1, 2, 3])
///     .build()?;
/// let log = HullBuilder::log(12, 0.2, 0.15, 4.0).build()?;
///
/// // The corner stands with its first face on the log.
/// let on_top = Transform { p: Vec3 { x: 0.0, y: -0.2, z: 0.17 }, q: Quat::IDENTITY };
/// let mut cache = SatCache::EMPTY;
/// let outcome = collide(&log.lend(), &corner.lend(), on_top, &mut cache);
/// assert!(!outcome.points().is_empty());
///
/// // A log that ends in a point has sides without length.
/// let error = HullBuilder::log(12, 0.2, 0.0, 4.0).build().unwrap_err();
/// assert_eq!(
///     error.to_string(),
///     "the edge from vertex 12 to vertex 13 is too short: on no axis are its ends more than 0.0 m apart, and \
///      0.0009765625 m is the least; join the two vertices"
/// );
/// # Ok::<(), contact::BuildError>(())
/// ```
#[derive(Debug, Clone)]
#[must_use]
pub struct HullBuilder {
    unit: Unit,
    vertices: Vec<[f32; 3]>,
    rings: Vec<Vec<usize>>,
    /// Where it was given.
    tolerance: Option<f32>,
}

impl HullBuilder {
    /// Without vertices and faces, in metres.
    pub fn new() -> Self {
        HullBuilder {
            unit: Unit::default(),
            vertices: Vec::new(),
            rings: Vec::new(),
            tolerance: None,
        }
    }

    /// The unit of the hull, and so of every length that the builder is given before or after: metres where it is not called. The
    /// limits go by it. Both hulls of a call have the same.
    ///
    /// ```
    /// use contact::{HullBuilder, Unit};
    ///
    /// let board = HullBuilder::board(400.0, 20.0, 5.0).unit(Unit::Centimetres).build()?;
    /// assert_eq!((board.unit(), board.size().unit), (Unit::Centimetres, 100));
    ///
    /// // In millimetres it is half a metre long, and 20 and 5 mm are no trouble: its edges may be as short as 0.9765625 mm.
    /// assert!(HullBuilder::board(500.0, 20.0, 5.0).unit(Unit::Millimetres).build().is_ok());
    /// let error = HullBuilder::board(500.0, 20.0, 0.5).unit(Unit::Millimetres).build().unwrap_err();
    /// assert_eq!(
    ///     error.to_string(),
    ///     "the edge from vertex 0 to vertex 4 is too short: on no axis are its ends more than 0.5 mm apart, and 0.9765625 mm \
    ///      is the least; join the two vertices"
    /// );
    /// # Ok::<(), contact::BuildError>(())
    /// ```
    pub fn unit(mut self, unit: Unit) -> Self {
        self.unit = unit;
        self
    }

    /// A board with its middle at the origin, so long along x, so wide along y and so thick along z, in the hull's unit.
    ///
    /// Vertex i lies at the high end of x, y or z where bit 0, 1 or 2 of i is set. The faces look along -x, +x, -y, +y, -z, +z.
    pub fn board(length: f32, width: f32, thickness: f32) -> Self {
        let half = [length, width, thickness].map(|side| side / 2.0);
        let corner = |number: usize| {
            [0, 1, 2].map(|axis| match number >> axis & 1 {
                0 => -half[axis],
                _ => half[axis],
            })
        };
        let rings = [
            [0, 4, 6, 2],
            [1, 3, 7, 5],
            [0, 1, 5, 4],
            [2, 6, 7, 3],
            [0, 2, 3, 1],
            [4, 5, 7, 6],
        ];
        let corners = HullBuilder::new().vertices((0..8).map(corner));
        rings.into_iter().fold(corners, HullBuilder::face)
    }

    /// A log along x with its middle at the origin: regular polygons of so many corners at -length/2, the butt, and at
    /// +length/2, the top. Radii and length are in the hull's unit; at most 42 sides fit into a hull.
    ///
    /// The butt has the vertices from 0 and the top those from `sides`, each from the y axis towards the z axis, the first
    /// half a side beyond it: of 4, 8, 12 .. sides one looks along z and one against it. Face 0 is the butt, face 1 the
    /// top, and face 2 + i has the corners i and i + 1 of both.
    pub fn log(sides: usize, butt_radius: f32, top_radius: f32, length: f32) -> Self {
        // More than fit are refused all the same, and must not fill the memory before.
        let sides = sides.min(links::MOST_VERTICES + 1);
        let half = f64::from(length) / 2.0;
        let circle = |x: f64, radius: f32| {
            (0..sides).map(move |i| {
                let (sin, cos) = (TAU * (i as f64 + 0.5) / sides as f64).sin_cos();
                let [y, z] = [cos, sin].map(|part| f64::from(radius) * part);
                [x, y, z].map(|part| part as f32)
            })
        };
        let ends = HullBuilder::new()
            .vertices(circle(-half, butt_radius))
            .vertices(circle(half, top_radius))
            .face((0..sides).rev())
            .face(sides..2 * sides);
        (0..sides).fold(ends, |log, i| {
            let j = (i + 1) % sides;
            log.face([i, j, sides + j, sides + i])
        })
    }

    /// More vertices, in the hull's unit. They are numbered from 0 in their order, and go on where the last call ended.
    pub fn vertices(mut self, vertices: impl IntoIterator<Item = [f32; 3]>) -> Self {
        self.vertices.extend(vertices);
        self
    }

    /// A face more: the numbers of its corners, counter-clockwise as seen from outside. Faces are numbered from 0 in
    /// their order.
    pub fn face(mut self, ring: impl IntoIterator<Item = usize>) -> Self {
        // So many corners name a vertex that is not there or one twice, which is told whatever comes after them.
        let corners = ring.into_iter().take(links::MOST_VERTICES + 1);
        self.rings.push(corners.collect());
        self
    }

    /// How far a corner may lie from its face's plane, and a vertex outside another face, in the hull's unit and in place of
    /// [`FLAT_TOLERANCE`]. A hull that is no thicker than this has no volume. A number below zero and a NaN count as 0.
    pub fn flat_within(mut self, length: f32) -> Self {
        self.tolerance = Some(length.max(0.0));
        self
    }

    /// The hull, or the first thing that is wrong with it. Nothing panics, whatever was given.
    ///
    /// Half-edges are numbered as the rings meet their sides, twins side by side and the one met first even. A face's
    /// stored edge is the first side of its ring, and a vertex's the first side, as the rings go, that starts there.
    /// The box fits the vertices, and vertex 0 stands in the padding. A plane has Newell's normal of the face's ring,
    /// and the highest corner lies on it.
    ///
    /// The tests come in this order, each of them of all vertices or all faces before the next:
    ///
    /// 1. the coordinates; how many vertices and faces there are; each ring by itself; how many half-edges there are;
    /// 2. no two rings go through a side in the same direction; each side has its opposite; each vertex is in a ring; all
    ///    faces make one shell; there is no hole through it;
    /// 3. no edge is too short; each face has an area, and is flat;
    /// 4. the hull has a volume, and is not inside out: this is told of the first face that is wound clockwise, never
    ///    of a dent in a hull whose rings are right;
    /// 5. each face is convex; the hull is convex;
    /// 6. the library's own rules, of which only H7 can still be broken: two fans meet at a vertex.
    pub fn build(&self) -> Result<OwnedHull, BuildError> {
        let (unit, vertices, rings) = (self.unit, &self.vertices[..], &self.rings[..]);
        coordinates_fit(unit, vertices)?;
        let size = links::size(unit, vertices.len(), rings)?;
        let links = links::list(size, rings)?;
        links::edges_are_long_enough(unit, vertices, rings)?;
        let bounded = Bounded::new(unit, vertices, rings)?;
        let tolerance = self.tolerance.unwrap_or(FLAT_TOLERANCE * unit.scale());
        bounded.check(tolerance)?;
        let hull = OwnedHull {
            unit,
            size,
            numbers: numbers(vertices, bounded.planes()),
            links,
        };
        match hull.lend().check() {
            Ok(()) => Ok(hull),
            Err(rule) => Err(BuildError::Rule(rule)),
        }
    }
}

impl Default for HullBuilder {
    fn default() -> Self {
        HullBuilder::new()
    }
}

/// A hull that owns its lists. The library's validator has passed it, so no call refuses it by 1 or 2.
#[derive(Debug, Clone)]
pub struct OwnedHull {
    unit: Unit,
    size: HullSize,
    numbers: Vec<f32>,
    links: Vec<u8>,
}

impl OwnedHull {
    /// The hull for a call.
    #[inline]
    pub fn lend(&self) -> Hull<'_> {
        Hull::lent(self.size, &self.numbers, &self.links)
    }

    #[inline]
    pub fn unit(&self) -> Unit {
        self.unit
    }

    /// Its unit is here too.
    #[inline]
    pub fn size(&self) -> HullSize {
        self.size
    }

    #[inline]
    pub fn numbers(&self) -> &[f32] {
        &self.numbers
    }

    #[inline]
    pub fn links(&self) -> &[u8] {
        &self.links
    }
}

/// Each coordinate is finite and within the unit's limit either way.
fn coordinates_fit(unit: Unit, vertices: &[[f32; 3]]) -> Result<(), BuildError> {
    let farthest = unit.farthest();
    for (vertex, point) in vertices.iter().enumerate() {
        for (axis, &value) in ['x', 'y', 'z'].into_iter().zip(point) {
            if !(-farthest..=farthest).contains(&value) {
                return Err(BuildError::Coordinate {
                    vertex,
                    axis,
                    value,
                    unit,
                });
            }
        }
    }
    Ok(())
}

/// The box, the three lists with vertex 0 in the padding, the planes.
fn numbers(vertices: &[[f32; 3]], planes: &[Plane]) -> Vec<f32> {
    let list = |axis: usize| vertices.iter().map(move |vertex| vertex[axis]);
    let padding = vertices.len().next_multiple_of(4) - vertices.len();
    let mut numbers = Vec::new();
    numbers.extend((0..3).map(|axis| list(axis).fold(f32::INFINITY, lower)));
    numbers.extend((0..3).map(|axis| list(axis).fold(f32::NEG_INFINITY, higher)));
    for (axis, &first) in vertices[0].iter().enumerate() {
        numbers.extend(list(axis).chain(repeat_n(first, padding)));
    }
    numbers.extend(planes.iter().flat_map(Plane::numbers));
    numbers
}

/// Of two zeros the first, where `f32::min` leaves the sign to the machine.
fn lower(a: f32, b: f32) -> f32 {
    if b < a {
        b
    } else {
        a
    }
}

fn higher<T: PartialOrd>(a: T, b: T) -> T {
    if b > a {
        b
    } else {
        a
    }
}
