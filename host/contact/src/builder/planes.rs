//! The planes of the faces, and the tests of the solid that they bound. They are made in binary64 of what is handed
//! out: the vertices as they were given, the normals as they are rounded.

use super::{higher, BuildError};
use crate::Unit;

type Vector = [f64; 3];

/// A face is without area where twice its area is no more than this part of the square of its reach. Rounding alone
/// gives less than that to corners on one line.
const NO_AREA: f64 = 1e-12;

/// The plane of a face. No corner of the face lies above it, and one lies on it.
pub struct Plane {
    /// Made of binary32 numbers.
    normal: Vector,
    /// Before it is rounded.
    offset: f64,
    /// Twice the face's area.
    area: f64,
}

impl Plane {
    /// With Newell's normal, of arms from the first corner, made unit and rounded. None where it cannot be found.
    fn new(corners: &[Vector]) -> Option<Plane> {
        let arms = corners[1..].iter().map(|&corner| sub(corner, corners[0]));
        let arms: Vec<Vector> = arms.collect();
        let areas = arms.windows(2).map(|pair| cross(pair[0], pair[1]));
        let sum = areas.reduce(add)?;
        let area = dot(sum, sum).sqrt();
        let reach = arms.iter().map(|&arm| dot(arm, arm)).fold(0.0, f64::max);
        if area <= NO_AREA * reach {
            return None;
        }
        let normal = sum.map(|x| f64::from((x / area) as f32));
        let heights = corners.iter().map(|&corner| dot(normal, corner));
        let offset = heights.reduce(higher)?;
        Some(Plane {
            normal,
            offset,
            area,
        })
    }

    /// Its normal and its offset as they are stored.
    pub fn numbers(&self) -> [f32; 4] {
        let [x, y, z] = self.normal;
        [x, y, z, self.offset].map(|x| x as f32)
    }

    /// How far a point lies above the plane.
    fn above(&self, point: Vector) -> f64 {
        dot(self.normal, point) - self.offset
    }
}

/// A solid with a plane for each of its faces.
pub struct Bounded<'a> {
    /// Of all lengths.
    unit: Unit,
    points: Vec<Vector>,
    rings: &'a [Vec<usize>],
    planes: Vec<Plane>,
}

impl<'a> Bounded<'a> {
    /// The rings name vertices that are there, and are not empty.
    pub fn new(
        unit: Unit,
        vertices: &[[f32; 3]],
        rings: &'a [Vec<usize>],
    ) -> Result<Self, BuildError> {
        let points: Vec<Vector> = vertices
            .iter()
            .map(|vertex| vertex.map(f64::from))
            .collect();
        let plane = |(face, ring): (usize, &Vec<usize>)| {
            let corners: Vec<Vector> = ring.iter().map(|&corner| points[corner]).collect();
            Plane::new(&corners).ok_or(BuildError::NoArea { face })
        };
        let planes = rings
            .iter()
            .enumerate()
            .map(plane)
            .collect::<Result<_, _>>()?;
        Ok(Bounded {
            unit,
            points,
            rings,
            planes,
        })
    }

    pub fn planes(&self) -> &[Plane] {
        &self.planes
    }

    /// Flat faces, a volume, right side out, convex faces, convex.
    pub fn check(&self, tolerance: f32) -> Result<(), BuildError> {
        self.faces_are_flat(tolerance)?;
        self.has_volume(tolerance)?;
        self.is_right_side_out()?;
        self.faces_are_convex(tolerance)?;
        self.is_convex(tolerance)
    }

    fn faces(&self) -> impl Iterator<Item = (usize, &[usize], &Plane)> {
        let rings = self.rings.iter().map(Vec::as_slice).enumerate();
        let faces = rings.zip(&self.planes);
        faces.map(|((face, ring), plane)| (face, ring, plane))
    }

    fn faces_are_flat(&self, tolerance: f32) -> Result<(), BuildError> {
        for (face, ring, plane) in self.faces() {
            let above = |&corner: &usize| plane.above(self.points[corner]);
            let (&vertex, below) = greatest(ring, |corner| -above(corner));
            let distance = below as f32;
            if distance > tolerance {
                let (&highest, _) = greatest(ring, above);
                return Err(BuildError::NotFlat {
                    face,
                    vertex,
                    highest,
                    distance,
                    tolerance,
                    unit: self.unit,
                });
            }
        }
        Ok(())
    }

    /// From each face's plane some vertex is farther than the tolerance.
    fn has_volume(&self, tolerance: f32) -> Result<(), BuildError> {
        for (face, _, plane) in self.faces() {
            let near = |&point: &Vector| plane.above(point).abs() as f32 <= tolerance;
            if self.points.iter().all(near) {
                return Err(BuildError::NoVolume {
                    face,
                    tolerance,
                    unit: self.unit,
                });
            }
        }
        Ok(())
    }

    /// Each face and the mean of all vertices bound a cone, whose volume counts as below zero where the mean lies above
    /// the face. They add up to the volume of the whole, whatever its shape is.
    fn is_right_side_out(&self) -> Result<(), BuildError> {
        let sum = self.points.iter().copied().fold([0.0; 3], add);
        let mean = sum.map(|x| x / self.points.len() as f64);
        let cone = |plane: &Plane| -plane.area * plane.above(mean);
        let volume: f64 = self.planes.iter().map(cone).sum();
        if volume >= 0.0 {
            return Ok(());
        }
        let mut heights = self
            .planes
            .iter()
            .map(|plane| plane.above(mean))
            .enumerate();
        match heights.find(|&(_, above)| above > 0.0) {
            None => Ok(()),
            Some((face, above)) => Err(BuildError::Clockwise {
                face,
                above: above as f32,
                unit: self.unit,
            }),
        }
    }

    /// Any three corners of a ring, in its order, turn counter-clockwise or lie on one line within the tolerance.
    fn faces_are_convex(&self, tolerance: f32) -> Result<(), BuildError> {
        for (face, ring, plane) in self.faces() {
            let mut deepest = ([0; 3], 0.0);
            for (c, &third) in ring.iter().enumerate() {
                for (b, &second) in ring[..c].iter().enumerate() {
                    for &first in &ring[..b] {
                        let dent = self.dent(plane, [first, second, third]);
                        if dent.1 > deepest.1 {
                            deepest = dent;
                        }
                    }
                }
            }
            let ([from, vertex, to], depth) = deepest;
            let distance = depth as f32;
            if distance > tolerance {
                return Err(BuildError::FaceNotConvex {
                    face,
                    vertex,
                    from,
                    to,
                    distance,
                    tolerance,
                    unit: self.unit,
                });
            }
        }
        Ok(())
    }

    /// The corner in the middle lies so far inside the line from the first to the last, where these three corners turn
    /// clockwise, and otherwise 0. They are returned so that this line is the longest side of their triangle.
    fn dent(&self, plane: &Plane, corners: [usize; 3]) -> ([usize; 3], f64) {
        let [a, b, c] = corners.map(|corner| self.points[corner]);
        let turn = dot(plane.normal, cross(sub(b, a), sub(c, b)));
        if turn >= 0.0 {
            return (corners, 0.0);
        }
        let square = |&[from, _, to]: &[usize; 3]| {
            let line = sub(self.points[to], self.points[from]);
            dot(line, line)
        };
        let [a, b, c] = corners;
        let rotations = [[a, b, c], [b, c, a], [c, a, b]];
        let (&longest, square) = greatest(&rotations, square);
        (longest, -turn / square.sqrt())
    }

    fn is_convex(&self, tolerance: f32) -> Result<(), BuildError> {
        let vertices: Vec<usize> = (0..self.points.len()).collect();
        for (face, _, plane) in self.faces() {
            let (&vertex, above) = greatest(&vertices, |&vertex| plane.above(self.points[vertex]));
            let distance = above as f32;
            if distance > tolerance {
                return Err(BuildError::NotConvex {
                    face,
                    vertex,
                    distance,
                    tolerance,
                    unit: self.unit,
                });
            }
        }
        Ok(())
    }
}

/// The item with the greatest measure, the first of several, and the measure. The list is not empty.
fn greatest<T>(list: &[T], measure: impl Fn(&T) -> f64) -> (&T, f64) {
    let first = (&list[0], measure(&list[0]));
    list[1..].iter().fold(first, |best, item| {
        let size = measure(item);
        if size > best.1 {
            (item, size)
        } else {
            best
        }
    })
}

fn add(a: Vector, b: Vector) -> Vector {
    [a[0] + b[0], a[1] + b[1], a[2] + b[2]]
}

fn sub(a: Vector, b: Vector) -> Vector {
    [a[0] - b[0], a[1] - b[1], a[2] - b[2]]
}

fn dot(a: Vector, b: Vector) -> f64 {
    a[0] * b[0] + a[1] * b[1] + a[2] * b[2]
}

fn cross(a: Vector, b: Vector) -> Vector {
    [
        a[1] * b[2] - a[2] * b[1],
        a[2] * b[0] - a[0] * b[2],
        a[0] * b[1] - a[1] * b[0],
    ]
}
