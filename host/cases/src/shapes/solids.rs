//! Solids: corners and face loops, and what can be done with them.

use super::{add, cross, dot, sub};
use crate::Numbers;
use std::f64::consts::TAU;

/// Corners, and for each face the numbers of its corners, counterclockwise seen from outside.
#[derive(Debug, Clone)]
pub struct Solid {
    pub corners: Vec<[f64; 3]>,
    pub faces: Vec<Vec<usize>>,
}

/// A corner's signs are the bits of its number; faces -x, +x, -y, +y, -z, +z.
pub fn block(half: [f64; 3]) -> Solid {
    let sign = |bit: usize| if bit & 1 == 1 { 1.0 } else { -1.0 };
    Solid {
        corners: (0..8)
            .map(|i| [0, 1, 2].map(|axis| sign(i >> axis) * half[axis]))
            .collect(),
        faces: [
            [0, 4, 6, 2],
            [1, 3, 7, 5],
            [0, 1, 5, 4],
            [2, 6, 7, 3],
            [0, 2, 3, 1],
            [4, 5, 7, 6],
        ]
        .map(Vec::from)
        .to_vec(),
    }
}

/// A square of half-size 1 without its corners.
pub const OCTAGON: [[f64; 2]; 8] = [
    [-0.5, -1.0],
    [0.5, -1.0],
    [1.0, -0.5],
    [1.0, 0.5],
    [0.5, 1.0],
    [-0.5, 1.0],
    [-1.0, 0.5],
    [-1.0, -0.5],
];

/// A regular polygon, counterclockwise.
pub fn polygon(sides: usize, radius: f64) -> Vec<[f64; 2]> {
    (0..sides)
        .map(|i| TAU * i as f64 / sides as f64)
        .map(|angle| [radius * angle.cos(), radius * angle.sin()])
        .collect()
}

/// A base below, counterclockwise seen from above, and above it the same times `taper`. A prism where that is 1. Where the base
/// is not convex, the solid is not either.
pub fn frustum(base: &[[f64; 2]], taper: f64, height: f64) -> Solid {
    let n = base.len();
    let mut corners = raised(base, -height / 2.0);
    corners.extend(raised(&scaled(base, taper), height / 2.0));
    let mut faces = vec![(0..n).rev().collect(), (n..2 * n).collect()];
    faces.extend((0..n).map(|i| {
        let j = (i + 1) % n;
        vec![i, j, n + j, n + i]
    }));
    Solid { corners, faces }
}

/// V n + 1, H 4n, F n + 1.
pub fn pyramid(sides: usize, radius: f64, height: f64) -> Solid {
    tipped(&polygon(sides, radius), height)
}

/// A base in the plane z = 0, counterclockwise seen from above, and a tip over the origin. Where the base is not convex, the
/// solid is not either.
pub fn tipped(base: &[[f64; 2]], height: f64) -> Solid {
    let sides = base.len();
    let mut corners = raised(base, 0.0);
    corners.push([0.0, 0.0, height]);
    let mut faces = vec![(0..sides).rev().collect()];
    faces.extend((0..sides).map(|i| vec![i, (i + 1) % sides, sides]));
    Solid { corners, faces }
}

/// V n + 2, H 6n, F 2n.
pub fn bipyramid(sides: usize, radius: f64, height: f64) -> Solid {
    let mut corners = raised(&polygon(sides, radius), 0.0);
    corners.extend([[0.0, 0.0, height], [0.0, 0.0, -height]]);
    let upper = (0..sides).map(|i| vec![i, (i + 1) % sides, sides]);
    let lower = (0..sides).map(|i| vec![(i + 1) % sides, i, sides + 1]);
    Solid {
        corners,
        faces: upper.chain(lower).collect(),
    }
}

/// V 2n, H 8n, F 2n + 2.
pub fn antiprism(sides: usize, radius: f64, height: f64) -> Solid {
    let both = polygon(2 * sides, radius);
    let corners = (both.iter().enumerate())
        .map(|(i, &[x, y])| {
            [
                x,
                y,
                if i % 2 == 0 {
                    -height / 2.0
                } else {
                    height / 2.0
                },
            ]
        })
        .collect();
    let n = 2 * sides;
    let mut faces: Vec<Vec<usize>> = vec![
        (0..n).step_by(2).rev().collect(),
        (1..n).step_by(2).collect(),
    ];
    faces.extend((0..n).map(|i| {
        let (j, k) = ((i + 1) % n, (i + 2) % n);
        if i % 2 == 0 {
            vec![i, k, j]
        } else {
            vec![i, j, k]
        }
    }));
    Solid { corners, faces }
}

/// V 45, H 256, F 85, since a face takes three half-edges: a bipyramid with a corner more in the middle of one edge,
/// joined to the far corner on one of its two sides.
pub fn most_faces(radius: f64) -> Solid {
    let mut solid = bipyramid(42, radius, radius);
    let middle = solid.corners.len();
    let ends = add(solid.corners[0], solid.corners[1]);
    solid.corners.push(ends.map(|x| x / 2.0));
    solid.faces[0] = vec![0, middle, 42];
    solid.faces.push(vec![middle, 1, 42]);
    solid.faces[42] = vec![1, middle, 0, 43];
    solid
}

/// V 126, H 256, F 4: as many vertices as one shell has, since V = H/2 + 2 - F.
pub fn most_vertices(radius: f64) -> Solid {
    flat(126, radius)
}

/// V n, H 2n + 4, F 4: a polygon with both its sides, and off each of them a triangle, not the same below as above. The two
/// long rings have n - 1 corners. From 4 corners on.
pub fn flat(sides: usize, radius: f64) -> Solid {
    two_sided(sides, radius)
        .with_corner_cut_off(0, 1)
        .with_corner_cut_off(1, 1)
}

/// V n, H 2n, F 2, which are too few faces for a hull of its own.
pub fn two_sided(sides: usize, radius: f64) -> Solid {
    Solid {
        corners: raised(&polygon(sides, radius), 0.0),
        faces: vec![(0..sides).collect(), (0..sides).rev().collect()],
    }
}

/// V n + 1, H 2n + 2 sides, F sides + 1: a pyramid whose base has n corners, those past its own along its sides, where the tip
/// has no edge to them.
pub fn split_pyramid(sides: usize, corners: usize, radius: f64, height: f64) -> Solid {
    let own = polygon(sides, radius);
    let mut base = Vec::new();
    let mut firsts = Vec::new();
    for (side, &[x, y]) in own.iter().enumerate() {
        let [to_x, to_y] = own[(side + 1) % sides];
        // The corners that are left over go to the first sides.
        let parts = corners / sides + usize::from(side < corners % sides);
        firsts.push(base.len());
        base.extend((0..parts).map(|part| {
            let along = part as f64 / parts as f64;
            [x + (to_x - x) * along, y + (to_y - y) * along]
        }));
    }
    firsts.push(corners);
    let mut solid = Solid {
        corners: raised(&base, 0.0),
        faces: vec![(0..corners).rev().collect()],
    };
    solid.corners.push([0.0, 0.0, height]);
    for ends in firsts.windows(2) {
        let below = (ends[0]..=ends[1]).map(|corner| corner % corners);
        solid.faces.push(below.chain([corners]).collect());
    }
    solid
}

/// V 4n, H 16n, F 4n: a ring of n blocks round a hole, its corners at two radii. Face 0 is one that looks away from the hole.
pub fn torus(sides: usize, [inner, outer]: [f64; 2], height: f64) -> Solid {
    let (low, high) = (-height / 2.0, height / 2.0);
    let mut corners = Vec::new();
    for (near, far) in polygon(sides, inner).into_iter().zip(polygon(sides, outer)) {
        let at = |[x, y]: [f64; 2], z: f64| [x, y, z];
        corners.extend([at(far, low), at(far, high), at(near, high), at(near, low)]);
    }
    let faces = (0..sides).flat_map(|side| {
        let (here, there) = (4 * side, 4 * ((side + 1) % sides));
        (0..4).map(move |i| {
            let j = (i + 1) % 4;
            vec![here + i, there + i, there + j, here + j]
        })
    });
    Solid {
        corners,
        faces: faces.collect(),
    }
}

/// V 24, H 72, F 14: two blocks side by side along x, and a lower bridge between them.
pub fn bridged(half: [f64; 3], apart: f64) -> Solid {
    let [wide, deep, high] = half;
    let (near, far) = (apart / 2.0, apart / 2.0 + 2.0 * wide);
    let right = [
        [near, -0.5],
        [near, -1.0],
        [far, -1.0],
        [far, 1.0],
        [near, 1.0],
        [near, 0.5],
    ];
    let left = right.map(|[x, y]| [-x, -y]);
    let outline: Vec<[f64; 2]> = right
        .into_iter()
        .chain(left)
        .map(|[x, y]| [x, y * deep])
        .collect();
    frustum(&outline, 1.0, 2.0 * high)
}

/// The outline of bands round a corner, one inside the other, joined where x is between `left` and 0. A band has an outer way
/// round and an inner one, which goes back; a way is its y below, its x on the right and its y above. The ways go inward.
pub fn bands(left: f64, ways: &[[f64; 3]]) -> Vec<[f64; 2]> {
    let mut outline = Vec::new();
    for (number, &[below, right, above]) in ways.iter().enumerate() {
        let end = number == 0 || number + 1 == ways.len();
        let start = if end { left } else { 0.0 };
        let mut way = [[start, below], [right, below], [right, above], [0.0, above]];
        if number % 2 == 1 {
            way.reverse();
        }
        outline.extend(way);
    }
    outline
}

fn raised(base: &[[f64; 2]], height: f64) -> Vec<[f64; 3]> {
    base.iter().map(|&[x, y]| [x, y, height]).collect()
}

fn scaled(base: &[[f64; 2]], by: f64) -> Vec<[f64; 2]> {
    base.iter().map(|corner| corner.map(|x| x * by)).collect()
}

impl Solid {
    fn each_corner(mut self, change: impl Fn([f64; 3]) -> [f64; 3]) -> Solid {
        for corner in &mut self.corners {
            *corner = change(*corner);
        }
        self
    }

    pub fn stretched(self, by: [f64; 3]) -> Solid {
        self.each_corner(|c| [c[0] * by[0], c[1] * by[1], c[2] * by[2]])
    }

    /// Carried along x and y by so much for each unit of z.
    pub fn sheared(self, by: [f64; 2]) -> Solid {
        self.each_corner(|c| add(c, [c[2] * by[0], c[2] * by[1], 0.0]))
    }

    pub fn moved(self, by: [f64; 3]) -> Solid {
        self.each_corner(|c| add(c, by))
    }

    /// Any turn about the origin.
    pub fn turned(self, n: &mut Numbers) -> Solid {
        let [x, y, z] = frame(n);
        self.each_corner(|c| [dot(x, c), dot(y, c), dot(z, c)])
    }

    /// Turned or not, and moved by at most `reach` on each axis.
    pub fn placed(self, reach: f64, n: &mut Numbers) -> Solid {
        let solid = if n.below(4) == 0 {
            self
        } else {
            self.turned(n)
        };
        solid.moved([0.0; 3].map(|_: f64| n.between(-reach, reach)))
    }

    /// Turned, and moved to near 4000 on each axis.
    pub fn far(self, n: &mut Numbers) -> Solid {
        let ends = [-1.0, 1.0];
        let by = [0.0; 3].map(|_: f64| ends[n.below(2)] * n.between(3950.0, 4050.0));
        self.turned(n).moved(by)
    }

    /// The same solid with its faces and corners numbered anew, and each loop from any of its corners.
    pub fn renumbered(&self, n: &mut Numbers) -> Solid {
        let order = n.order(self.corners.len());
        let mut corners = self.corners.clone();
        for (&to, &corner) in order.iter().zip(&self.corners) {
            corners[to] = corner;
        }
        let faces = n.order(self.faces.len()).into_iter().map(|face| {
            let mut face: Vec<usize> = self.faces[face].iter().map(|&c| order[c]).collect();
            let first = n.below(face.len());
            face.rotate_left(first);
            face
        });
        Solid {
            faces: faces.collect(),
            corners,
        }
    }

    /// A corner more, inside a face, joined to the face's first corner alone: the loop goes there and back.
    pub fn with_corner_in_face(mut self, face: usize) -> Solid {
        let alone = self.corners.len();
        let face = &mut self.faces[face];
        let sum = (face.iter()).fold([0.0; 3], |sum, &corner| add(sum, self.corners[corner]));
        self.corners.push(sum.map(|x| x / face.len() as f64));
        face.splice(1..1, [alone, face[0]]);
        self
    }

    /// A diagonal cuts off the corner at this place of a face; it and the two beside it make a face more.
    fn with_corner_cut_off(mut self, face: usize, place: usize) -> Solid {
        let ring = &mut self.faces[face];
        let last = ring.len() - 1;
        let ends = [place + last, place, place + 1].map(|place| ring[place % (last + 1)]);
        ring.remove(place);
        self.faces.push(ends.to_vec());
        self
    }

    /// Made one with its mirror image behind a face; both lose the face, and its corners are common to them.
    pub fn doubled(&self, face: usize) -> Solid {
        let common = &self.faces[face];
        let [a, b, c] = [0, 1, 2].map(|place| self.corners[common[place]]);
        let up = cross(sub(b, a), sub(c, a));
        let mirrored = |corner: [f64; 3]| {
            let by = 2.0 * dot(sub(corner, a), up) / dot(up, up);
            sub(corner, up.map(|x| x * by))
        };
        let mut both = self.clone();
        let mut image: Vec<usize> = (0..self.corners.len()).collect();
        for (corner, own) in self.corners.iter().zip(&mut image) {
            if !common.contains(own) {
                *own = both.corners.len();
                both.corners.push(mirrored(*corner));
            }
        }
        both.faces.remove(face);
        for ring in both.faces.clone() {
            both.faces
                .push(ring.iter().rev().map(|&corner| image[corner]).collect());
        }
        both
    }

    /// Every face looks the other way: the wall of a hollow.
    pub fn inside_out(mut self) -> Solid {
        for ring in &mut self.faces {
            ring.reverse();
        }
        self
    }

    /// Both under one list of corners and one of faces.
    pub fn joined(&self, other: &Solid) -> Solid {
        let first = self.corners.len();
        let mut both = self.clone();
        both.corners.extend(&other.corners);
        let faces = other.faces.iter();
        both.faces
            .extend(faces.map(|face| face.iter().map(|c| c + first).collect::<Vec<_>>()));
        both
    }
}

/// Three directions at right angles.
pub fn frame(n: &mut Numbers) -> [[f64; 3]; 3] {
    let mut unit = || loop {
        let v = [0.0; 3].map(|_: f64| n.between(-1.0, 1.0));
        let square = dot(v, v);
        if (0.01..1.0).contains(&square) {
            return v.map(|x| x / square.sqrt());
        }
    };
    loop {
        let (x, other) = (unit(), unit());
        let across = cross(x, other);
        let size = dot(across, across).sqrt();
        if size > 0.1 {
            let y = across.map(|x| x / size);
            return [x, y, cross(x, y)];
        }
    }
}
