//! Anything at all: good solids with a few changes, and numbers without any order. No input makes the builder panic,
//! and what it hands out is accepted and as convex as it says.

use super::errors::doubled;
use super::{broken_rule, builder};
use cases::shapes::kinds;
use cases::shapes::solids::{bipyramid, block, frustum, polygon, pyramid, Solid};
use cases::Numbers;
use contact::*;
use std::collections::BTreeMap;

fn good(n: &mut Numbers) -> Solid {
    let size = n.between(0.1, 3.0);
    let solid = match n.below(5) {
        0 => block([size; 3]),
        1 => frustum(&polygon(3 + n.below(6), size), n.between(0.5, 1.0), size),
        2 => bipyramid(3 + n.below(4), size, size),
        3 => kinds::any_log(n),
        _ => pyramid(3 + n.below(5), size, size),
    };
    solid.renumbered(n)
}

/// A vertex number, seldom one that is not there.
fn vertex(solid: &Solid, n: &mut Numbers) -> usize {
    match n.below(30) {
        0 => usize::MAX - n.below(2),
        1 => solid.corners.len() + n.below(300),
        _ => n.below(solid.corners.len().max(1)),
    }
}

fn point(n: &mut Numbers) -> [f64; 3] {
    [0.0; 3].map(|_: f64| n.float().into())
}

/// Corners and rings without any order.
fn random(n: &mut Numbers) -> Solid {
    let corners = (0..n.below(12)).map(|_| point(n)).collect();
    let faces = Vec::new();
    let mut solid = Solid { corners, faces };
    for _ in 0..n.below(10) {
        let ring = (0..n.below(6)).map(|_| vertex(&solid, n)).collect();
        solid.faces.push(ring);
    }
    solid
}

/// A change of any sort, where there is anything to change.
fn change(solid: &mut Solid, n: &mut Numbers) {
    if solid.corners.is_empty() || solid.faces.iter().all(Vec::is_empty) {
        return;
    }
    match n.below(4) {
        0 => change_corner(solid, n),
        1 | 2 => change_face(solid, n),
        _ => change_all(solid, n),
    }
}

fn change_corner(solid: &mut Solid, n: &mut Numbers) {
    let corner = n.below(solid.corners.len());
    let other = solid.corners[n.below(solid.corners.len())];
    let axis = n.below(3);
    match n.below(6) {
        0 => solid.corners[corner][axis] = n.float().into(),
        1 => solid.corners[corner][axis] += f64::from(n.fraction()) * 1e-3,
        2 => solid.corners[corner][axis] += f64::from(n.fraction()),
        3 => solid.corners[corner] = other,
        4 => solid.corners.push(other),
        _ => solid.corners.push(point(n)),
    }
}

fn change_face(solid: &mut Solid, n: &mut Numbers) {
    let face = n.below(solid.faces.len());
    let (number, ring) = (vertex(solid, n), &mut solid.faces[face]);
    if ring.is_empty() {
        return;
    }
    let place = n.below(ring.len());
    match n.below(10) {
        0 => ring.reverse(),
        1 => ring.rotate_left(place),
        2 => ring.truncate(place),
        3 => drop(ring.remove(place)),
        4 => ring[place] = number,
        5 => ring.insert(place, number),
        6 => ring.swap(0, place),
        7 => solid.faces.extend_from_within(face..=face),
        8 => drop(solid.faces.swap_remove(face)),
        _ => cut(solid, face, n),
    }
}

fn change_all(solid: &mut Solid, n: &mut Numbers) {
    let (axis, by) = (n.below(3), f64::from(n.float()));
    let corners = solid.corners.iter_mut();
    match n.below(6) {
        0 => solid.faces.iter_mut().for_each(|ring| ring.reverse()),
        1 => corners.for_each(|corner| corner[axis] = by),
        2 => corners.for_each(|corner| corner[axis] *= by),
        3 => corners.for_each(|corner| *corner = corner.map(|x| x * by)),
        4 => wind_twice(solid, n),
        _ => twice(solid, n.below(2), n.below(9)),
    }
}

/// The solid and itself, so far away, with the first so many corners in common.
fn twice(solid: &mut Solid, common: usize, apart: usize) {
    let more = solid.corners.len() - common;
    let others = solid.corners[common..].to_vec();
    let moved = others.iter().map(|[x, y, z]| [x + apart as f64, *y, *z]);
    solid.corners.extend(moved);
    for face in 0..solid.faces.len() {
        let other = |&corner: &usize| match corner {
            _ if corner < common => corner,
            _ => corner.saturating_add(more),
        };
        let ring = solid.faces[face].iter().map(other).collect();
        solid.faces.push(ring);
    }
}

/// The solid twice in its place, wound twice round the two neighbours of a corner or two; one vertex more may be common.
fn wind_twice(solid: &mut Solid, n: &mut Numbers) {
    let (mut common, mut exchanged) = (Vec::new(), Vec::new());
    for _ in 0..=n.below(2) {
        let face = n.below(solid.faces.len());
        let ring = &solid.faces[face];
        if ring.is_empty() {
            return;
        }
        let (corner, sides) = (n.below(ring.len()), ring.len());
        common.extend([
            ring[(corner + 1) % sides],
            ring[(corner + sides - 1) % sides],
        ]);
        exchanged.push((face, ring[corner]));
    }
    if n.below(2) == 0 {
        common.push(vertex(solid, n));
    }
    *solid = doubled(solid, &common, &exchanged);
}

/// A face becomes two, along a line through a corner more, near or inside the face.
fn cut(solid: &mut Solid, face: usize, n: &mut Numbers) {
    let ring = solid.faces[face].clone();
    let [Some(a), Some(b)] = [ring[0], ring[ring.len() / 2]].map(|i| solid.corners.get(i).copied())
    else {
        return;
    };
    let (part, off) = (n.between(0.0, 1.0), n.between(-0.2, 0.2));
    let third = solid.corners[n.below(solid.corners.len())];
    let middle = [0, 1, 2].map(|i| a[i] + (b[i] - a[i]) * part + (third[i] - a[i]) * off);
    let (number, half) = (solid.corners.len(), ring.len() / 2);
    solid.corners.push(middle);
    let [mut first, mut second] = [ring[..=half].to_vec(), ring[half..].to_vec()];
    second.push(ring[0]);
    first.push(number);
    second.push(number);
    solid.faces[face] = first;
    solid.faces.push(second);
}

fn name(error: BuildError) -> String {
    let debug = format!("{error:?}");
    let end = debug.find([' ', '(']).unwrap_or(debug.len());
    debug[..end].to_string()
}

/// No vertex lies above a stored plane by more than the tolerance, and no corner farther than that from its own, but
/// for the rounding of the offset.
fn assert_convex(hull: &OwnedHull, solid: &Solid, tolerance: f32) {
    let (size, numbers) = (hull.size(), hull.numbers());
    let lanes = size.vertices.next_multiple_of(4);
    let point = |vertex| [0, 1, 2].map(|axis| f64::from(numbers[6 + axis * lanes + vertex]));
    for (plane, ring) in numbers[6 + 3 * lanes..].chunks_exact(4).zip(&solid.faces) {
        let [x, y, z, offset] = [0, 1, 2, 3].map(|i| f64::from(plane[i]));
        let slack = f64::from(tolerance) * 1.000001 + offset.abs() * 6e-8 + 1e-40;
        for vertex in 0..size.vertices {
            let [a, b, c] = point(vertex);
            let above = x * a + y * b + z * c - offset;
            assert!(above <= slack, "{above} {solid:?}");
            assert!(
                !ring.contains(&vertex) || above >= -slack,
                "{above} {solid:?}"
            );
        }
    }
}

#[test]
fn anything() {
    let mut numbers = Numbers::new(3);
    let n = &mut numbers;
    let mut met: BTreeMap<String, usize> = BTreeMap::new();
    for round in 0..20_000 {
        let mut solid = if round % 8 == 0 { random(n) } else { good(n) };
        for _ in 0..n.below(4) {
            change(&mut solid, n);
        }
        let tolerance = match n.below(4) {
            0 => n.float(),
            1 => 0.1,
            _ => FLAT_TOLERANCE,
        };
        let unit = n.unit();
        let solid = solid.stretched([unit.scale().into(); 3]);
        let tolerance = tolerance * unit.scale();
        let builder = builder(&solid).unit(unit).flat_within(tolerance);
        let name = match builder.build() {
            Ok(hull) => {
                assert_eq!(broken_rule(&hull), 0, "{solid:?}");
                assert_eq!(hull.lend().check(), Ok(()), "{solid:?}");
                assert_convex(&hull, &solid, tolerance.max(0.0));
                "built".to_string()
            }
            Err(error) => {
                let sentence = error.to_string();
                assert!(
                    sentence.len() > 30 && !sentence.contains('\n'),
                    "{sentence}"
                );
                let rule = matches!(error, BuildError::Rule(_));
                assert!(!rule || error == BuildError::Rule(Rule::Fans), "{error}");
                name(error)
            }
        };
        *met.entry(name).or_default() += 1;
    }
    // Each of the eighteen errors, and hulls.
    assert_eq!(met.len(), 19, "{met:?}");
    assert!(met["built"] > 4000, "{met:?}");
    println!("{met:?}");
}
