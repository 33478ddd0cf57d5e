//! The second validator, written from the documents alone: document 01's rules for a hull and for a transform, document 02's H9
//! and its units, one function a rule with the paper's sentence above it. The runs hold the proved validator to it.

/// No hull has more half-edges.
const MOST_HALF_EDGES: usize = 256;

/// "The hull rules' 4096, 8192 and 1/1024 are multiplied by it, as are .. the transform .. limits": by a hull's unit, and in a
/// transform by that of both hulls. Every product is exact.
#[derive(Debug, Clone, Copy)]
pub struct Limits {
    /// Coordinates, padding, the box and positions lie within this either way.
    pub farthest: f32,
    /// Offsets lie within this either way.
    pub farthest_offset: f32,
    /// The ends of an edge are this far apart on some axis.
    pub shortest: f32,
}

impl Limits {
    pub fn of(unit: usize) -> Limits {
        let times = |limit: f64| (limit * unit as f64) as f32;
        Limits {
            farthest: times(4096.0),
            farthest_offset: times(8192.0),
            shortest: times(1.0 / 1024.0),
        }
    }
}

/// "1, 10, 100 or 1000 per metre".
fn is_unit(unit: usize) -> bool {
    [1, 10, 100, 1000].contains(&unit)
}

/// The number of the first rule that the hull breaks, 0 if none. Any lists, any unit and any sizes may be asked about.
///
/// `numbers`: box low x, y, z; box high x, y, z; the x list, the y list, the z list, each padded to a multiple of four;
/// then for each face its normal x, y, z and its offset. `links`: the stored edge of each vertex; next, twin, origin and
/// face of each half-edge; the stored edge of each face.
pub fn first_broken_rule(
    numbers: &[f32],
    links: &[u8],
    unit: usize,
    vertices: usize,
    half_edges: usize,
    faces: usize,
) -> u8 {
    if !is_unit(unit) {
        return 1;
    }
    let limits = Limits::of(unit);
    first_broken_rule_within(&limits, numbers, links, vertices, half_edges, faces)
}

/// The same by these limits, of a hull whose unit is not looked at.
pub fn first_broken_rule_within(
    limits: &Limits,
    numbers: &[f32],
    links: &[u8],
    vertices: usize,
    half_edges: usize,
    faces: usize,
) -> u8 {
    if !sizes_fit(numbers, links, vertices, half_edges, faces) {
        return 1;
    }
    let hull = Hull::new(numbers, links, vertices, half_edges);
    if !numbers_in_range(&hull) {
        2
    } else if !twins_side_by_side(&hull) {
        3
    } else if !next_follows(&hull) {
        4
    } else if !next_differs(&hull) {
        5
    } else if !rings_hold_faces(&hull) {
        6
    } else if !fans_hold_vertices(&hull) {
        7
    } else if !floats_fit(&hull, limits) {
        8
    } else if !one_shell(&hull) {
        9
    } else {
        0
    }
}

/// "A transform is accepted when all is finite, its position is within 4096 on each axis and the squares of its
/// quaternion sum to 0.99 to 1.01." The 4096 is multiplied by the unit of both hulls; the quaternion's scalar stands last.
pub fn transform_accepted(unit: usize, position: [f32; 3], quaternion: [f32; 4]) -> bool {
    let farthest = Limits::of(unit).farthest;
    position.iter().all(|&x| within(x, farthest)) && nearly_unit(&quaternion)
}

/// The parts of a hull whose lists have fitting lengths.
struct Hull<'a> {
    low: &'a [f32],
    high: &'a [f32],
    /// The x list, the y list and the z list, padding included.
    coordinates: [&'a [f32]; 3],
    /// Normal and offset of each face.
    planes: &'a [[f32; 4]],
    vertex_edges: &'a [u8],
    /// Next, twin, origin and face of each half-edge.
    half_edges: &'a [[u8; 4]],
    face_edges: &'a [u8],
}

impl<'a> Hull<'a> {
    fn new(numbers: &'a [f32], links: &'a [u8], vertices: usize, half_edges: usize) -> Self {
        let lanes = vertices.next_multiple_of(4);
        let (low, numbers) = numbers.split_at(3);
        let (high, numbers) = numbers.split_at(3);
        let (xs, numbers) = numbers.split_at(lanes);
        let (ys, numbers) = numbers.split_at(lanes);
        let (zs, numbers) = numbers.split_at(lanes);
        let (vertex_edges, links) = links.split_at(vertices);
        let (half_edges, face_edges) = links.split_at(4 * half_edges);
        Hull {
            low,
            high,
            coordinates: [xs, ys, zs],
            planes: numbers.as_chunks().0,
            vertex_edges,
            half_edges: half_edges.as_chunks().0,
            face_edges,
        }
    }

    fn next(&self, edge: usize) -> usize {
        self.half_edges[edge][0].into()
    }

    fn twin(&self, edge: usize) -> usize {
        self.half_edges[edge][1].into()
    }

    fn origin(&self, edge: usize) -> usize {
        self.half_edges[edge][2].into()
    }

    fn face(&self, edge: usize) -> usize {
        self.half_edges[edge][3].into()
    }
}

/// H1. "V 4 to 128, H even and 12 to 256, F 4 to 128, all lists of fitting length"; "also for an unknown unit" ([`is_unit`]).
fn sizes_fit(
    numbers: &[f32],
    links: &[u8],
    vertices: usize,
    half_edges: usize,
    faces: usize,
) -> bool {
    (4..=128).contains(&vertices)
        && (12..=MOST_HALF_EDGES).contains(&half_edges)
        && half_edges.is_multiple_of(2)
        && (4..=128).contains(&faces)
        && numbers.len() == 6 + 3 * vertices.next_multiple_of(4) + 4 * faces
        && links.len() == vertices + 4 * half_edges + faces
}

/// H2. "Every stored vertex, half-edge and face number is in range."
fn numbers_in_range(hull: &Hull) -> bool {
    let edge_in_range = |edge: u8| usize::from(edge) < hull.half_edges.len();
    let in_range = |&[next, twin, origin, face]: &[u8; 4]| {
        edge_in_range(next)
            && edge_in_range(twin)
            && usize::from(origin) < hull.vertex_edges.len()
            && usize::from(face) < hull.face_edges.len()
    };
    hull.vertex_edges.iter().all(|&edge| edge_in_range(edge))
        && hull.half_edges.iter().all(in_range)
        && hull.face_edges.iter().all(|&edge| edge_in_range(edge))
}

/// H3. "Half-edges 2k and 2k+1 are each other's twin."
fn twins_side_by_side(hull: &Hull) -> bool {
    (0..hull.half_edges.len()).all(|edge| hull.twin(edge) == edge ^ 1)
}

/// H4. "A half-edge's next has the same face, and its origin is the origin of the half-edge's twin."
fn next_follows(hull: &Hull) -> bool {
    (0..hull.half_edges.len()).all(|edge| {
        let next = hull.next(edge);
        hull.face(next) == hull.face(edge) && hull.origin(next) == hull.origin(hull.twin(edge))
    })
}

/// H5. "No two half-edges have the same next."
fn next_differs(hull: &Hull) -> bool {
    let mut taken = [false; MOST_HALF_EDGES];
    (0..hull.half_edges.len()).all(|edge| !std::mem::replace(&mut taken[hull.next(edge)], true))
}

/// H6. "Each face's stored edge has that face. Its ring (next, until back) has at least 3 and holds every half-edge of
/// that face." A ring stays in its face by H4, so no other ring could hold them.
fn rings_hold_faces(hull: &Hull) -> bool {
    walks_hold_all(
        hull,
        hull.face_edges,
        |edge| hull.face(edge),
        |edge| hull.next(edge),
        3,
    )
}

/// H7. "Each vertex's stored edge starts there. Its fan (next of the twin, until back) holds every half-edge with that
/// origin." A fan stays at its vertex by H3 and H4, so no other fan could hold them.
fn fans_hold_vertices(hull: &Hull) -> bool {
    walks_hold_all(
        hull,
        hull.vertex_edges,
        |edge| hull.origin(edge),
        |edge| hull.next(hull.twin(edge)),
        1,
    )
}

/// Whether each stored edge belongs where it is stored, each walk from one has at least this many, and the walks together
/// hold every half-edge. No step leads to one half-edge from two others (H5, and H3 for the twin), so a walk comes back.
fn walks_hold_all(
    hull: &Hull,
    stored: &[u8],
    home: impl Fn(usize) -> usize,
    step: impl Fn(usize) -> usize,
    least: usize,
) -> bool {
    let mut held = [false; MOST_HALF_EDGES];
    let mut holds = |place: usize, start: usize| {
        let (mut edge, mut length) = (start, 0);
        loop {
            held[edge] = true;
            edge = step(edge);
            length += 1;
            if edge == start {
                return home(start) == place && length >= least;
            }
        }
    };
    stored
        .iter()
        .enumerate()
        .all(|(place, &start)| holds(place, start.into()))
        && held[..hull.half_edges.len()].iter().all(|&held| held)
}

/// H8. "All floats finite. Coordinates, padding and box within 4096 either way; every vertex inside the box. Offsets
/// within 8192. The sum of squares of each normal is 0.99 to 1.01. For every edge some coordinate's rounded difference
/// between its ends is 1/1024 or more either way." What lies within limits is finite. The lengths go by the hull's own unit, the
/// sums of squares do not.
fn floats_fit(hull: &Hull, limits: &Limits) -> bool {
    let vertices = hull.vertex_edges.len();
    let near = |list: &[f32]| list.iter().all(|&x| within(x, limits.farthest));
    let inside = |axis: usize| {
        let (low, high) = (hull.low[axis], hull.high[axis]);
        let list = hull.coordinates[axis];
        list[..vertices].iter().all(|&x| low <= x && x <= high)
    };
    let plane_fits =
        |plane: &[f32; 4]| within(plane[3], limits.farthest_offset) && nearly_unit(&plane[..3]);
    let long_enough = |edge: usize| {
        let (from, to) = (hull.origin(edge), hull.origin(edge + 1));
        hull.coordinates
            .iter()
            .any(|list| (list[from] - list[to]).abs() >= limits.shortest)
    };
    near(hull.low)
        && near(hull.high)
        && hull.coordinates.iter().all(|list| near(list))
        && (0..3).all(inside)
        && hull.planes.iter().all(plane_fits)
        && (0..hull.half_edges.len()).step_by(2).all(long_enough)
}

/// H9. "Every half-edge can be reached from half-edge 0 by next and twin, and V - H/2 + F = 2."
fn one_shell(hull: &Hull) -> bool {
    let (vertices, faces) = (hull.vertex_edges.len(), hull.face_edges.len());
    all_reached(hull) && vertices + faces == hull.half_edges.len() / 2 + 2
}

/// Each half-edge that is reached waits once, until its next and its twin are looked at.
fn all_reached(hull: &Hull) -> bool {
    let mut reached = [false; MOST_HALF_EDGES];
    let mut waiting = [0; MOST_HALF_EDGES];
    reached[0] = true;
    let (mut looked_at, mut found) = (0, 1);
    while looked_at < found {
        let edge = waiting[looked_at];
        for other in [hull.next(edge), hull.twin(edge)] {
            if !std::mem::replace(&mut reached[other], true) {
                waiting[found] = other;
                found += 1;
            }
        }
        looked_at += 1;
    }
    found == hull.half_edges.len()
}

/// Not so for a NaN.
fn within(x: f32, limit: f32) -> bool {
    -limit <= x && x <= limit
}

/// "Sums of squares are rounded at each operation, left to right in stored order, and compared with the binary32 numbers
/// nearest 0.99 and 1.01." Not so where one of them is infinite or a NaN.
fn nearly_unit(parts: &[f32]) -> bool {
    let sum = parts[1..]
        .iter()
        .fold(parts[0] * parts[0], |sum, x| sum + x * x);
    (0.99..=1.01).contains(&sum)
}
