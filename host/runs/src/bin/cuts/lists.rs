//! Lists of candidates for the picks, some of them with twins: candidates with one tag at one position, which only their
//! places tell apart.

use cases::inputs::{rounded, vector};
use cases::shapes::solids::frame;
use cases::sorts::about;
use cases::Numbers;
use probes::{ClipVertex, FeaturePair, Kept, Places, Unit, Vec3, MAX_CLIP_POINTS};
use std::f64::consts::TAU;

/// A normal and 0 to 64 candidates in this unit, most of them about a plane across it.
pub fn any(unit: Unit, n: &mut Numbers) -> (Vec3, Vec<ClipVertex>) {
    let [u, v, w] = match n.below(3) {
        0 => [[1.0, 0.0, 0.0], [0.0, 1.0, 0.0], [0.0, 0.0, 1.0]],
        1 => [[0.0, 1.0, 0.0], [0.0, 0.0, -1.0], [-1.0, 0.0, 0.0]],
        _ => frame(n),
    };
    let normal = match n.below(16) {
        0 => vector(n),
        _ => rounded(w),
    };
    let size = match n.below(4) {
        0 => n.below(6),
        1 => 5 + n.below(12),
        2 => n.below(65),
        _ => 60 + n.below(5),
    };
    let flat = flat_positions(size, n);
    let rough = [0.0, 0.0, 0.01, 1.0][n.below(4)];
    let metre = f64::from(unit.scale());
    let mut list: Vec<ClipVertex> = flat
        .into_iter()
        .zip(separations(size, unit, n))
        .map(|([x, y], separation)| {
            let z = rough * n.between(-1.0, 1.0);
            let position = [0, 1, 2].map(|axis| x * u[axis] + y * v[axis] + z * w[axis]);
            ClipVertex {
                position: rounded(position.map(|x| metre * x)),
                separation,
                pair: pair(n),
            }
        })
        .collect();
    if n.below(8) == 0 {
        for _ in 0..1 + n.below(1 + size) {
            if let Some(v) = list.get_mut(n.below(64)) {
                v.position = vector(n);
            }
        }
    }
    if size > 1 && n.below(4) == 0 {
        for _ in 0..1 + n.below(size) {
            list[n.below(size)] = list[n.below(size)];
        }
    }
    (normal, list)
}

/// Positions in a plane: anywhere, round a circle, on a line and nearly, all at one, two at each, on a grid, in a
/// triangle, close together.
fn flat_positions(size: usize, n: &mut Numbers) -> Vec<[f64; 2]> {
    let reach = [0.001, 0.02, 0.1, 1.0, 1.0, 10.0, 1000.0][n.below(7)];
    let middle = [n.between(-3.0, 3.0), n.between(-3.0, 3.0)];
    let sort = n.below(9);
    let slope = n.between(-2.0, 2.0);
    let mut list: Vec<[f64; 2]> = Vec::new();
    for i in 0..size {
        let (a, b) = (n.between(-1.0, 1.0), n.between(-1.0, 1.0));
        let turn = TAU * i as f64 / size as f64;
        list.push(match sort {
            0 => [a, b],
            1 => [turn.cos(), turn.sin()],
            2 => [a, slope * a],
            3 => [a, slope * a + 1e-3 * b / reach],
            4 => [0.0; 2],
            5 if i % 2 == 1 => list[i - 1],
            5 => [a, b],
            6 => [n.below(5) as f64 - 2.0, n.below(5) as f64 - 2.0],
            7 if i < 3 => [(TAU * i as f64 / 3.0).cos(), (TAU * i as f64 / 3.0).sin()],
            7 => [0.3 * a, 0.3 * b],
            _ => [0.01 * a, 0.01 * b],
        });
    }
    if sort == 7 {
        let order = n.order(size);
        list = order.into_iter().map(|i| list[i]).collect();
    }
    let stay = sort == 6 || n.below(2) == 0;
    list.into_iter()
        .map(|[x, y]| match stay {
            true => [reach * x, reach * y],
            false => [reach * x + middle[0], reach * y + middle[1]],
        })
        .collect()
}

/// About the speculative distance, all beyond it, all alike, some way deep, or floats of any sort.
fn separations(size: usize, unit: Unit, n: &mut Numbers) -> Vec<f32> {
    let (distance, metre) = (unit.speculative_distance(), unit.scale());
    let near = about(distance);
    let alike = [0.0, -0.0, -0.01 * metre, near[n.below(3)]][n.below(4)];
    let sort = n.below(7);
    let mut separation = || match sort {
        0 => near[n.below(3)],
        1 => distance.next_up() + metre * (n.fraction() + 1.0),
        2 => alike,
        3 => n.float(),
        4 => n.fraction() * 1e-3 * metre,
        _ => n.fraction() * 0.05 * metre,
    };
    (0..size).map(|_| separation()).collect()
}

/// The list anywhere in the lists, with one corner, which is any, in all places beside it.
pub fn lent(list: &[ClipVertex], n: &mut Numbers) -> (Places, Kept) {
    let mut places = Places::filled(corner(n));
    let (from, count) = (n.below(1 + MAX_CLIP_POINTS), list.len());
    places.put(from, list);
    (places, Kept { from, count })
}

/// The list as the first polygon, with one corner, which is any, in its places after it, and zeros in the second.
pub fn first(list: &[ClipVertex], n: &mut Numbers) -> Places {
    let mut places = Places::new(&[corner(n); MAX_CLIP_POINTS]);
    places.put(0, list);
    places
}

fn corner(n: &mut Numbers) -> ClipVertex {
    ClipVertex {
        position: vector(n),
        separation: n.float(),
        pair: pair(n),
    }
}

/// Any tag.
pub fn pair(n: &mut Numbers) -> FeaturePair {
    let [owner1, index1, owner2, index2, ..] = n.word().to_le_bytes();
    FeaturePair {
        owner1,
        index1,
        owner2,
        index2,
    }
}
