//! Where two convex bodies touch, found over every direction that can separate them.

use super::turns::turned;
use crate::shapes::solids::Solid;
use crate::shapes::{cross, dot, higher, sub};

/// Corners, the directions out of the faces, and the directions of the edges, each once.
pub struct Body {
    corners: Vec<[f64; 3]>,
    normals: Vec<[f64; 3]>,
    edges: Vec<[f64; 3]>,
}

impl Body {
    pub fn new(solid: &Solid) -> Body {
        let corner = |&number: &usize| solid.corners[number];
        let mut edges: Vec<[f64; 3]> = Vec::new();
        for face in &solid.faces {
            for (i, from) in face.iter().enumerate() {
                let to = &face[(i + 1) % face.len()];
                let edge = unit(sub(corner(to), corner(from)));
                if !edges.iter().any(|&e| parallel(e, edge)) {
                    edges.push(edge);
                }
            }
        }
        let normals = solid.faces.iter().map(|face| {
            let [a, b, c] = [0, 1, 2].map(|i| corner(&face[i]));
            unit(cross(sub(b, a), sub(c, b)))
        });
        Body {
            normals: normals.collect(),
            edges,
            corners: solid.corners.clone(),
        }
    }

    fn turned(&self, turn: [f64; 4]) -> Body {
        let each = |list: &[[f64; 3]]| list.iter().map(|&v| turned(turn, v)).collect();
        Body {
            corners: each(&self.corners),
            normals: each(&self.normals),
            edges: each(&self.edges),
        }
    }

    /// How far the body reaches in a direction.
    fn reach(&self, way: [f64; 3]) -> f64 {
        let heights = self.corners.iter().map(|&c| dot(c, way));
        heights.fold(f64::NEG_INFINITY, higher)
    }
}

/// How far B, turned and set at `at`, is moved along `push` until it leaves A, and the direction from A to B that then
/// separates the two.
pub fn touching_at(
    a: &Body,
    b: &Body,
    turn: [f64; 4],
    at: [f64; 3],
    push: [f64; 3],
) -> (f64, [f64; 3]) {
    let b = b.turned(turn);
    let faces = a.normals.iter().copied();
    let theirs = b.normals.iter().map(|normal| normal.map(|x| -x));
    let across = (a.edges.iter())
        .flat_map(|&e| b.edges.iter().map(move |&f| (e, f)))
        .filter(|&(e, f)| !parallel(e, f))
        .map(|(e, f)| unit(cross(e, f)))
        .flat_map(|way| [way, way.map(|x| -x)]);
    faces
        .chain(theirs)
        .chain(across)
        .filter(|&way| dot(way, push) > 1e-6)
        .map(|way| {
            let room = a.reach(way) + b.reach(way.map(|x| -x)) - dot(way, at);
            (room / dot(way, push), way)
        })
        .min_by(|(s, _), (t, _)| s.total_cmp(t))
        .expect("some face of a body looks any way")
}

fn unit(v: [f64; 3]) -> [f64; 3] {
    let size = dot(v, v).sqrt();
    v.map(|x| x / size)
}

/// Whether two unit vectors are, either way, but for rounding.
fn parallel(a: [f64; 3], b: [f64; 3]) -> bool {
    let across = cross(a, b);
    dot(across, across) < 1e-12
}
