//! Document 01's examples of a cut, and the cut that passes through a corner, with the answers that it gives.

use super::hold::polygon_is;
use cases::shapes::solids::polygon;
use cases::Tally;
use probes::{ClipVertex, FeaturePair, Kept, Places, Plane, Vec3, MAX_CLIP_POINTS};

/// The half-edge that cuts.
const EDGE: u8 = 9;

fn at(x: f32, y: f32) -> Vec3 {
    Vec3 { x, y, z: 0.0 }
}

fn corner(x: f32, y: f32, [owner1, index1, owner2, index2]: [u8; 4]) -> ClipVertex {
    ClipVertex {
        position: at(x, y),
        separation: 0.0,
        pair: FeaturePair {
            owner1,
            index1,
            owner2,
            index2,
        },
    }
}

/// Cut to x at most `limit`; the reference face lies in the corners' own plane. The lists, and how many corners are left.
fn cut(corners: &[ClipVertex], limit: f32) -> (Places, usize) {
    let plane = Plane {
        normal: at(1.0, 0.0),
        offset: limit,
    };
    let reference = Plane {
        normal: Vec3 {
            x: 0.0,
            y: 0.0,
            z: 1.0,
        },
        offset: 0.0,
    };
    let mut places = Places::new(corners);
    let count = places.clip_polygon(corners.len(), plane, EDGE, reference);
    (places, count)
}

pub fn rows() -> Tally {
    let mut t = Tally::default();
    let square = [
        corner(0.0, 0.0, [1, 6, 1, 0]),
        corner(2.0, 0.0, [1, 0, 1, 2]),
        corner(2.0, 2.0, [1, 2, 1, 4]),
        corner(0.0, 2.0, [1, 4, 1, 6]),
    ];
    let half = [
        square[0],
        corner(1.0, 0.0, [1, 0, 0, EDGE]),
        corner(1.0, 2.0, [0, EDGE, 1, 4]),
        square[3],
    ];
    // Two corners lie on the plane: both are kept, and the outline leaves and enters at their positions once more.
    let diamond = [
        corner(0.0, 0.0, [1, 6, 1, 0]),
        corner(2.0, -2.0, [1, 0, 1, 2]),
        corner(4.0, 0.0, [1, 2, 1, 4]),
        corner(2.0, 2.0, [1, 4, 1, 6]),
    ];
    let halved = [
        diamond[0],
        diamond[1],
        corner(2.0, -2.0, [1, 2, 0, EDGE]),
        corner(2.0, 2.0, [0, EDGE, 1, 4]),
        diamond[3],
    ];
    for (what, corners, limit, left) in [
        ("square to 1", square, 1.0, &half[..]),
        ("square to 2", square, 2.0, &square[..]),
        ("square to -1", square, -1.0, &[]),
        ("diamond to 2", diamond, 2.0, &halved[..]),
    ] {
        let (places, count) = cut(&corners, limit);
        let from = MAX_CLIP_POINTS;
        let equal = count == left.len() && polygon_is(&places, from, left);
        t.compare(equal, || {
            let left = places.corners(Kept { from, count });
            format!("{what}: {left:?}")
        });
    }
    for (sides, limit, left) in [(64, 0.999, 65), (64, 2.0, 64), (63, 0.999, 64)] {
        let round: Vec<ClipVertex> = polygon(sides, 1.0)
            .into_iter()
            .map(|[x, y]| corner(x as f32, y as f32, [0; 4]))
            .collect();
        let (_, count) = cut(&round, limit);
        t.compare(count == left, || format!("{sides}-gon to {limit}: {count}"));
    }
    t
}
