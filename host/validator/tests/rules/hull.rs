//! Hulls made by hand, changed, made of loops, and put into one record.

use std::collections::HashMap;
use validator::first_broken_rule;

#[derive(Clone)]
pub struct Hull {
    pub unit: usize,
    pub numbers: Vec<f32>,
    pub vertex_edges: Vec<u8>,
    pub half_edges: Vec<[u8; 4]>,
    pub face_edges: Vec<u8>,
}

impl Hull {
    pub fn answer(&self) -> u8 {
        self.answer_for(
            self.vertex_edges.len(),
            self.half_edges.len(),
            self.face_edges.len(),
        )
    }

    pub fn answer_for(&self, vertices: usize, half_edges: usize, faces: usize) -> u8 {
        let (numbers, links) = (&self.numbers, self.links());
        first_broken_rule(numbers, &links, self.unit, vertices, half_edges, faces)
    }

    /// The same hull in this unit, from metres: every number but the normals is larger by it.
    pub fn in_unit(&self, unit: usize) -> Hull {
        let mut hull = self.clone();
        let planes = 6 + 3 * self.vertex_edges.len().next_multiple_of(4);
        for (place, x) in hull.numbers.iter_mut().enumerate() {
            if place < planes || (place - planes) % 4 == 3 {
                *x *= unit as f32;
            }
        }
        hull.unit = unit;
        hull
    }

    pub fn links(&self) -> Vec<u8> {
        let mut links = self.vertex_edges.clone();
        links.extend(self.half_edges.iter().flatten());
        links.extend(&self.face_edges);
        links
    }

    /// The answer after one change.
    pub fn changed(&self, change: impl FnOnce(&mut Hull)) -> u8 {
        let mut hull = self.clone();
        change(&mut hull);
        hull.answer()
    }

    /// The answer with one float put in place of another.
    pub fn with(&self, place: usize, x: f32) -> u8 {
        self.changed(|hull| hull.numbers[place] = x)
    }

    /// The x list, the y list and the z list without padding, and the planes.
    fn lists(&self) -> ([Vec<f32>; 3], &[f32]) {
        let vertices = self.vertex_edges.len();
        let lanes = vertices.next_multiple_of(4);
        let list = |axis| self.numbers[6 + axis * lanes..][..vertices].to_vec();
        ([0, 1, 2].map(list), &self.numbers[6 + 3 * lanes..])
    }

    /// Both in one record, the other moved along x. This one's vertices, half-edges and faces come first.
    pub fn beside(&self, other: &Hull, by: f32) -> Hull {
        let [v, h, f] = [
            self.vertex_edges.len(),
            self.half_edges.len(),
            self.face_edges.len(),
        ]
        .map(|count| count as u8);
        let ([mut xs, mut ys, mut zs], planes) = self.lists();
        let (others, other_planes) = other.lists();
        xs.extend(others[0].iter().map(|x| x + by));
        ys.extend(&others[1]);
        zs.extend(&others[2]);
        let mut planes = planes.to_vec();
        for plane in other_planes.chunks(4) {
            planes.extend([plane[0], plane[1], plane[2], plane[3] + plane[0] * by]);
        }
        let mut both = self.clone();
        both.numbers = numbers([xs, ys, zs], &planes);
        both.vertex_edges
            .extend(other.vertex_edges.iter().map(|edge| edge + h));
        let edges = other.half_edges.iter();
        both.half_edges.extend(
            edges.map(|&[next, twin, origin, face]| [next + h, twin + h, origin + v, face + f]),
        );
        both.face_edges
            .extend(other.face_edges.iter().map(|edge| edge + h));
        both
    }

    /// The same hull with this pair of half-edges and the first one exchanged.
    pub fn with_first_pair(&self, pair: u8) -> Hull {
        let name = |edge: u8| match edge / 2 {
            0 => edge + 2 * pair,
            at if at == pair => edge - 2 * pair,
            _ => edge,
        };
        let mut hull = self.clone();
        for (edge, &[next, twin, origin, face]) in self.half_edges.iter().enumerate() {
            hull.half_edges[usize::from(name(edge as u8))] = [name(next), name(twin), origin, face];
        }
        let stored = hull.vertex_edges.iter_mut().chain(&mut hull.face_edges);
        stored.for_each(|edge| *edge = name(*edge));
        hull
    }
}

/// The box, the lists padded with their last numbers, and the planes.
fn numbers(mut lists: [Vec<f32>; 3], planes: &[f32]) -> Vec<f32> {
    let least = lists
        .iter()
        .map(|list| list.iter().copied().fold(f32::INFINITY, f32::min));
    let most = lists
        .iter()
        .map(|list| list.iter().copied().fold(f32::NEG_INFINITY, f32::max));
    let mut numbers: Vec<f32> = least.chain(most).collect();
    for list in &mut lists {
        list.resize(list.len().next_multiple_of(4), list[list.len() - 1]);
        numbers.append(list);
    }
    numbers.extend(planes);
    numbers
}

/// A hull of these corners and of loops of their numbers, pairs numbered as the loops meet them. Each normal is that of the
/// loop's first three corners.
pub fn of_loops(corners: &[[f32; 3]], loops: &[Vec<u8>]) -> Hull {
    let sides = |ring: &[u8]| -> Vec<(u8, u8)> {
        let after = ring.iter().cycle().skip(1);
        ring.iter().copied().zip(after.copied()).collect()
    };
    let mut numbered = HashMap::new();
    for (a, b) in loops.iter().flat_map(|ring| sides(ring)) {
        let fresh = numbered.len() as u8;
        if !numbered.contains_key(&(a, b)) {
            numbered.extend([((a, b), fresh), ((b, a), fresh + 1)]);
        }
    }
    let mut hull = Hull {
        unit: 1,
        numbers: Vec::new(),
        vertex_edges: vec![0; corners.len()],
        half_edges: vec![[0; 4]; numbered.len()],
        face_edges: Vec::new(),
    };
    let mut planes = Vec::new();
    for (face, ring) in loops.iter().enumerate() {
        let sides = sides(ring);
        for (i, side) in sides.iter().enumerate() {
            let (edge, next) = (numbered[side], numbered[&sides[(i + 1) % sides.len()]]);
            hull.half_edges[usize::from(edge)] = [next, edge ^ 1, side.0, face as u8];
            hull.vertex_edges[usize::from(side.0)] = edge;
        }
        hull.face_edges.push(numbered[&sides[0]]);
        planes.extend(plane([0, 1, 2].map(|i| corners[usize::from(ring[i])])));
    }
    let list = |axis: usize| corners.iter().map(|corner| corner[axis]).collect();
    hull.numbers = numbers([0, 1, 2].map(list), &planes);
    hull
}

fn plane([a, b, c]: [[f32; 3]; 3]) -> [f32; 4] {
    let (u, v) = (
        [0, 1, 2].map(|i| b[i] - a[i]),
        [0, 1, 2].map(|i| c[i] - a[i]),
    );
    let across = [[1, 2], [2, 0], [0, 1]].map(|[i, j]| u[i] * v[j] - u[j] * v[i]);
    let length = across.iter().map(|x| x * x).sum::<f32>().sqrt();
    let [x, y, z] = across.map(|x| x / length);
    [x, y, z, x * a[0] + y * a[1] + z * a[2]]
}

/// Corners 0, x, y, z; faces z = 0, y = 0, x = 0 and the slanted one.
pub fn tetrahedron() -> Hull {
    let k = 1.0 / 3.0f32.sqrt();
    Hull {
        unit: 1,
        numbers: vec![
            0.0, 0.0, 0.0, 1.0, 1.0, 1.0, // box
            0.0, 1.0, 0.0, 0.0, // x
            0.0, 0.0, 1.0, 0.0, // y
            0.0, 0.0, 0.0, 1.0, // z
            0.0, 0.0, -1.0, 0.0, // planes
            0.0, -1.0, 0.0, 0.0, //
            -1.0, 0.0, 0.0, 0.0, //
            k, k, k, k, //
        ],
        vertex_edges: vec![0, 3, 1, 7],
        half_edges: vec![
            [2, 1, 0, 0],
            [9, 0, 2, 2],
            [4, 3, 2, 0],
            [11, 2, 1, 3],
            [0, 5, 1, 0],
            [6, 4, 0, 1],
            [8, 7, 1, 1],
            [3, 6, 3, 3],
            [5, 9, 3, 1],
            [10, 8, 0, 2],
            [1, 11, 3, 2],
            [7, 10, 2, 3],
        ],
        face_edges: vec![0, 5, 9, 3],
    }
}

/// Half-size 1; a corner's signs are the bits of its number; faces -x, +x, -y, +y, -z, +z.
pub fn cube() -> Hull {
    Hull {
        unit: 1,
        numbers: vec![
            -1.0, -1.0, -1.0, 1.0, 1.0, 1.0, // box
            -1.0, 1.0, -1.0, 1.0, -1.0, 1.0, -1.0, 1.0, // x
            -1.0, -1.0, 1.0, 1.0, -1.0, -1.0, 1.0, 1.0, // y
            -1.0, -1.0, -1.0, -1.0, 1.0, 1.0, 1.0, 1.0, // z
            -1.0, 0.0, 0.0, 1.0, // planes
            1.0, 0.0, 0.0, 1.0, //
            0.0, -1.0, 0.0, 1.0, //
            0.0, 1.0, 0.0, 1.0, //
            0.0, 0.0, -1.0, 1.0, //
            0.0, 0.0, 1.0, 1.0, //
        ],
        vertex_edges: vec![0, 8, 5, 9, 1, 13, 3, 11],
        half_edges: vec![
            [2, 1, 0, 0],
            [16, 0, 4, 2],
            [4, 3, 4, 0],
            [19, 2, 6, 5],
            [6, 5, 6, 0],
            [20, 4, 2, 3],
            [0, 7, 2, 0],
            [23, 6, 0, 4],
            [10, 9, 1, 1],
            [17, 8, 3, 4],
            [12, 11, 3, 1],
            [22, 10, 7, 3],
            [14, 13, 7, 1],
            [21, 12, 5, 5],
            [8, 15, 5, 1],
            [18, 14, 1, 2],
            [15, 17, 0, 2],
            [7, 16, 1, 4],
            [1, 19, 5, 2],
            [13, 18, 4, 5],
            [11, 21, 6, 3],
            [3, 20, 7, 5],
            [5, 23, 3, 3],
            [9, 22, 2, 4],
        ],
        face_edges: vec![0, 8, 16, 5, 7, 19],
    }
}
