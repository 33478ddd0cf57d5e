//! Hulls: a solid's record in the project's layout, with whatever the record leaves open chosen at random.

use crate::Numbers;
use records::{HullLists, HullSize, Unit};
use solids::Solid;
use std::collections::HashMap;

pub mod breaks;
pub mod kinds;
pub mod solids;

/// A hull as it is lent: two lists, its unit and three sizes.
#[derive(Debug, Clone)]
pub struct Shape {
    pub numbers: Vec<f32>,
    pub links: Vec<u8>,
    pub size: HullSize,
}

/// The four numbers of a half-edge, in their order.
#[derive(Debug, Clone, Copy, PartialEq, Eq)]
pub enum Link {
    Next,
    Twin,
    Origin,
    Face,
}

impl Link {
    pub const ALL: [Link; 4] = [Link::Next, Link::Twin, Link::Origin, Link::Face];
}

/// What stands in the lanes past the last vertex.
pub enum Padding<'a> {
    First,
    Last,
    Zeros,
    /// One point in every lane.
    Point([f32; 3]),
    /// Any numbers within the limit of coordinates.
    Any(&'a mut Numbers),
}

impl Shape {
    /// The hull as it is lent, whatever its lists and sizes are.
    pub fn lent(&self) -> HullLists<'_> {
        HullLists {
            numbers: &self.numbers,
            links: &self.links,
            size: self.size,
        }
    }

    /// The number of the first rule that it breaks by the second validator, 0 if none.
    pub fn broken_rule(&self) -> u8 {
        broken_rule(self.lent())
    }

    /// Its unit; metres where it is none.
    pub fn unit(&self) -> Unit {
        self.size.known_unit().unwrap_or_default()
    }

    /// The same hull in this unit. It is one in metres; one in any other unit, or in none, stays as it is.
    pub fn in_unit(self, unit: Unit) -> Shape {
        self.measured(unit, unit.scale())
    }

    /// The same in this unit, with every length so many times as large.
    pub fn measured(mut self, unit: Unit, by: f32) -> Shape {
        if self.size.unit != Unit::Metres.per_metre() {
            return self;
        }
        self.size.unit = unit.per_metre();
        // Lists of other lengths than the sizes ask for have their planes elsewhere, and all of their numbers are taken.
        let fits = self.size.numbers() == Some(self.numbers.len());
        let planes = if fits {
            self.plane(0)
        } else {
            self.numbers.len()
        };
        let (lengths, planes) = self.numbers.split_at_mut(planes);
        let offsets = planes.iter_mut().skip(3).step_by(4);
        for length in lengths.iter_mut().chain(offsets) {
            *length *= by;
        }
        self
    }

    /// In metres. Faces and vertices by their numbers in the solid; half-edges 2k and 2k+1 are twins, numbered as the loops
    /// meet them; each ring from its loop's first corner; the first vertex in the padding.
    pub fn new(solid: &Solid) -> Shape {
        let size = HullSize {
            unit: Unit::Metres.per_metre(),
            vertices: solid.corners.len(),
            half_edges: solid.faces.iter().map(Vec::len).sum(),
            faces: solid.faces.len(),
        };
        let mut shape = Shape::of_zeros(size);
        shape.set_links(&solid.faces);
        for (number, corner) in solid.corners.iter().enumerate() {
            for (axis, &x) in corner.iter().enumerate() {
                let place = shape.coordinate(axis, number);
                shape.numbers[place] = x as f32;
            }
        }
        shape.pad(Padding::First);
        shape.fit_box();
        for (number, face) in solid.faces.iter().enumerate() {
            let place = shape.plane(number);
            let plane = plane(face.iter().map(|&corner| shape.vertex(corner)));
            shape.numbers[place..place + 4].copy_from_slice(&plane);
        }
        shape
    }

    /// Lists of fitting lengths.
    fn of_zeros(size: HullSize) -> Shape {
        let lanes = size.vertices.next_multiple_of(4);
        Shape {
            numbers: vec![0.0; 6 + 3 * lanes + 4 * size.faces],
            links: vec![0; size.vertices + 4 * size.half_edges + size.faces],
            size,
        }
    }

    fn set_links(&mut self, faces: &[Vec<usize>]) {
        let mut numbered = HashMap::new();
        for (a, b) in faces.iter().flat_map(|face| sides(face)) {
            let fresh = numbered.len();
            if !numbered.contains_key(&(a, b)) {
                numbered.insert((a, b), fresh);
                numbered.insert((b, a), fresh + 1);
            }
        }
        for (number, face) in faces.iter().enumerate() {
            let ring: Vec<usize> = sides(face).map(|side| numbered[&side]).collect();
            for ((edge, next), &corner) in sides(&ring).zip(face) {
                self.set_all(edge, [next, edge ^ 1, corner, number]);
                self.store(edge);
            }
            self.store(ring[0]);
        }
    }

    /// The solid with its faces, its vertices, the pairs of half-edges, the stored edges and the padding at random.
    pub fn any(solid: &Solid, n: &mut Numbers) -> Shape {
        let mut shape = Shape::new(&solid.renumbered(n)).with_pairs_renumbered(n);
        shape.store_any(n);
        shape.pad_any(n);
        shape
    }

    /// Both in one record and in a box that holds both. The other's vertices, half-edges and faces come behind the own ones;
    /// zeros stand in the padding.
    pub fn joined(&self, other: &Shape) -> Shape {
        let (a, b) = (self.size, other.size);
        let mut both = Shape::of_zeros(HullSize {
            unit: a.unit,
            vertices: a.vertices + b.vertices,
            half_edges: a.half_edges + b.half_edges,
            faces: a.faces + b.faces,
        });
        both.copy_from(self, [0, 0, 0]);
        both.copy_from(other, [a.vertices, a.half_edges, a.faces]);
        for axis in 0..3 {
            both.numbers[axis] = lower(self.numbers[axis], other.numbers[axis]);
            both.numbers[3 + axis] = higher(self.numbers[3 + axis], other.numbers[3 + axis]);
        }
        both
    }

    /// The other's vertices, half-edges and faces, from these numbers on.
    fn copy_from(&mut self, other: &Shape, [first_vertex, first_edge, first_face]: [usize; 3]) {
        for vertex in 0..other.size.vertices {
            self.links[first_vertex + vertex] = other.links[vertex] + first_edge as u8;
            for axis in 0..3 {
                let place = self.coordinate(axis, first_vertex + vertex);
                self.numbers[place] = other.numbers[other.coordinate(axis, vertex)];
            }
        }
        for edge in 0..other.size.half_edges {
            let [next, twin, origin, face] = Link::ALL.map(|link| other.get(edge, link));
            let (next, twin) = (first_edge + next, first_edge + twin);
            let (origin, face) = (first_vertex + origin, first_face + face);
            self.set_all(first_edge + edge, [next, twin, origin, face]);
        }
        for face in 0..other.size.faces {
            let place = self.face_edge(first_face + face);
            self.links[place] = other.links[other.face_edge(face)] + first_edge as u8;
            let (place, from) = (self.plane(first_face + face), other.plane(face));
            self.numbers[place..place + 4].copy_from_slice(&other.numbers[from..from + 4]);
        }
    }

    /// The same hull with its pairs of half-edges numbered anew, and perhaps turned; twins stay side by side.
    pub fn with_pairs_renumbered(&self, n: &mut Numbers) -> Shape {
        let order = n.order(self.size.half_edges / 2);
        let turned: Vec<usize> = order.iter().map(|_| n.below(2)).collect();
        self.with_edges_renumbered(|edge| 2 * order[edge / 2] + ((edge % 2) ^ turned[edge / 2]))
    }

    /// The same hull with half-edge `e` under the number `name(e)`.
    pub fn with_edges_renumbered(&self, name: impl Fn(usize) -> usize) -> Shape {
        let mut shape = self.clone();
        for edge in 0..self.size.half_edges {
            let [next, twin, origin, face] = Link::ALL.map(|link| self.get(edge, link));
            shape.set_all(name(edge), [name(next), name(twin), origin, face]);
        }
        for place in (0..self.size.vertices).chain(self.face_edge(0)..self.links.len()) {
            shape.links[place] = name(self.links[place].into()) as u8;
        }
        shape
    }

    /// Any half-edge of each face and of each vertex becomes its stored one.
    pub fn store_any(&mut self, n: &mut Numbers) {
        for edge in n.order(self.size.half_edges) {
            self.store(edge);
        }
    }

    pub fn pad_any(&mut self, n: &mut Numbers) {
        self.pad(match n.below(4) {
            0 => Padding::First,
            1 => Padding::Last,
            2 => Padding::Zeros,
            _ => Padding::Any(n),
        });
    }

    pub fn pad(&mut self, mut padding: Padding) {
        let vertices = self.size.vertices;
        for axis in 0..3 {
            for lane in vertices..self.lanes() {
                let place = self.coordinate(axis, lane);
                self.numbers[place] = match &mut padding {
                    Padding::First => self.numbers[self.coordinate(axis, 0)],
                    Padding::Last => self.numbers[self.coordinate(axis, vertices - 1)],
                    Padding::Zeros => 0.0,
                    Padding::Point(point) => point[axis],
                    Padding::Any(n) => n.fraction() * 4096.0,
                };
            }
        }
    }

    /// The box becomes the least and greatest coordinates of the vertices.
    pub fn fit_box(&mut self) {
        for axis in 0..3 {
            let first = self.coordinate(axis, 0);
            let list = &self.numbers[first..first + self.size.vertices];
            let low = list.iter().copied().fold(f32::INFINITY, lower);
            let high = list.iter().copied().fold(f32::NEG_INFINITY, higher);
            self.numbers[axis] = low;
            self.numbers[3 + axis] = high;
        }
    }

    /// The half-edge becomes the stored one of its vertex and of its face.
    pub fn store(&mut self, edge: usize) {
        let (origin, face) = (self.get(edge, Link::Origin), self.get(edge, Link::Face));
        self.links[origin] = edge as u8;
        let place = self.face_edge(face);
        self.links[place] = edge as u8;
    }

    pub fn get(&self, edge: usize, link: Link) -> usize {
        self.links[self.link(edge, link)].into()
    }

    pub fn set(&mut self, edge: usize, link: Link, to: usize) {
        let place = self.link(edge, link);
        self.links[place] = to as u8;
    }

    /// Next, twin, origin and face of a half-edge.
    pub fn set_all(&mut self, edge: usize, to: [usize; 4]) {
        for (link, to) in Link::ALL.into_iter().zip(to) {
            self.set(edge, link, to);
        }
    }

    /// Where this number of a half-edge stands in the links; a vertex's stored edge stands at the vertex's number.
    pub fn link(&self, edge: usize, link: Link) -> usize {
        self.size.vertices + 4 * edge + link as usize
    }

    /// Where a face's stored edge stands in the links.
    pub fn face_edge(&self, face: usize) -> usize {
        self.size.vertices + 4 * self.size.half_edges + face
    }

    /// Where this coordinate of a vertex or a padding lane stands in the numbers; the box stands in the first six.
    pub fn coordinate(&self, axis: usize, lane: usize) -> usize {
        6 + axis * self.lanes() + lane
    }

    /// Where a face's normal and offset begin in the numbers.
    pub fn plane(&self, face: usize) -> usize {
        6 + 3 * self.lanes() + 4 * face
    }

    pub fn vertex(&self, number: usize) -> [f32; 3] {
        [0, 1, 2].map(|axis| self.numbers[self.coordinate(axis, number)])
    }

    fn lanes(&self) -> usize {
        self.size.vertices.next_multiple_of(4)
    }
}

/// The number of the first rule that a hull breaks by the second validator, 0 if none.
pub fn broken_rule(hull: HullLists) -> u8 {
    let HullSize {
        unit,
        vertices,
        half_edges,
        faces,
    } = hull.size;
    validator::first_broken_rule(hull.numbers, hull.links, unit, vertices, half_edges, faces)
}

/// Each item with the one after it, the last with the first.
fn sides(ring: &[usize]) -> impl Iterator<Item = (usize, usize)> + '_ {
    let after = ring.iter().cycle().skip(1);
    ring.iter().copied().zip(after.copied())
}

/// Normal and offset of the plane of a loop; no corner lies above it.
fn plane(corners: impl Iterator<Item = [f32; 3]>) -> [f32; 4] {
    let corners: Vec<[f64; 3]> = corners.map(|corner| corner.map(f64::from)).collect();
    let arms = corners[1..].iter().map(|&corner| sub(corner, corners[0]));
    let arms: Vec<[f64; 3]> = arms.collect();
    let area = arms.windows(2).map(|pair| cross(pair[0], pair[1]));
    let area = area.reduce(add).expect("a loop has three corners");
    let normal = area.map(|x| (x / dot(area, area).sqrt()) as f32);
    let heights = corners.iter().map(|&c| dot(normal.map(f64::from), c));
    let offset = heights.fold(f64::NEG_INFINITY, higher) as f32;
    [normal[0], normal[1], normal[2], offset]
}

/// Of two zeros the first, where the library's own leaves the sign to the machine.
fn lower<T: PartialOrd>(a: T, b: T) -> T {
    if b < a {
        b
    } else {
        a
    }
}

pub(crate) fn higher<T: PartialOrd>(a: T, b: T) -> T {
    if b > a {
        b
    } else {
        a
    }
}

pub(crate) fn add(a: [f64; 3], b: [f64; 3]) -> [f64; 3] {
    [a[0] + b[0], a[1] + b[1], a[2] + b[2]]
}

pub(crate) fn sub(a: [f64; 3], b: [f64; 3]) -> [f64; 3] {
    add(a, b.map(|x| -x))
}

pub(crate) fn dot(a: [f64; 3], b: [f64; 3]) -> f64 {
    a[0] * b[0] + a[1] * b[1] + a[2] * b[2]
}

pub(crate) fn cross(a: [f64; 3], b: [f64; 3]) -> [f64; 3] {
    [
        a[1] * b[2] - a[2] * b[1],
        a[2] * b[0] - a[0] * b[2],
        a[0] * b[1] - a[1] * b[0],
    ]
}
