//! Each error from the smallest change to a good hull, with its place and its sentence. What good hulls, changes and
//! sentences are stands here; first the order in which errors are told.

use super::shells::{grown_together, square_ring};
use super::{broken_rule, builder};
use cases::shapes::solids::{block, Solid};
use contact::*;

mod planes;
mod rings;

/// Half-size 1.
fn cube() -> Solid {
    block([1.0; 3])
}

/// A corner of a cube; the last face is the slope.
pub fn tetrahedron() -> Solid {
    Solid {
        corners: vec![
            [0.0, 0.0, 0.0],
            [1.0, 0.0, 0.0],
            [0.0, 1.0, 0.0],
            [0.0, 0.0, 1.0],
        ],
        faces: [[0, 2, 1], [0, 1, 3], [0, 3, 2], [1, 2, 3]]
            .map(Vec::from)
            .to_vec(),
    }
}

fn changed(mut solid: Solid, change: impl FnOnce(&mut Solid)) -> Solid {
    change(&mut solid);
    solid
}

/// The solid twice in its place, with these corners in common. At each corner of a face that is told, this face takes the
/// other solid's corner and the face at its place this one's. Where the corners beside it are common, both are one shell from
/// there on, wound twice round these two.
pub fn doubled(solid: &Solid, common: &[usize], exchanged: &[(usize, usize)]) -> Solid {
    let mut both = solid.clone();
    let mut others: Vec<usize> = (0..solid.corners.len()).collect();
    for (corner, other) in others.iter_mut().enumerate() {
        if !common.contains(&corner) {
            *other = both.corners.len();
            both.corners.push(solid.corners[corner]);
        }
    }
    for (face, ring) in solid.faces.iter().enumerate() {
        let other = |&corner: &usize| others.get(corner).copied().unwrap_or(corner);
        let mut second: Vec<usize> = ring.iter().map(other).collect();
        for (i, &corner) in ring.iter().enumerate() {
            if exchanged.contains(&(face, corner)) {
                std::mem::swap(&mut both.faces[face][i], &mut second[i]);
            }
        }
        both.faces.push(second);
    }
    both
}

pub fn turn_all(solid: &mut Solid) {
    solid.faces.iter_mut().for_each(|ring| ring.reverse());
}

fn error(builder: HullBuilder) -> BuildError {
    builder.build().map(|_| ()).expect_err("it is wrong")
}

/// The cube with this change is refused so, in a sentence that has these words.
fn refused(change: impl FnOnce(&mut Solid), wanted: BuildError, words: &str) {
    says(builder(&changed(cube(), change)), wanted, words);
}

fn says(builder: HullBuilder, wanted: BuildError, words: &str) {
    let found = error(builder);
    assert_eq!(found, wanted);
    let sentence = found.to_string();
    assert!(sentence.contains(words), "{sentence}");
}

fn builds(builder: HullBuilder) {
    let hull = builder.build().unwrap_or_else(|error| panic!("{error}"));
    assert_eq!(broken_rule(&hull), 0);
}

#[test]
fn good_ones() {
    builds(builder(&cube()));
    builds(builder(&tetrahedron()));
}

/// The first that is wrong is told: each step mends that, and the next one is.
#[test]
fn order() {
    let mut solid = changed(cube().joined(&tetrahedron()), |it| {
        it.corners.extend([[f64::NAN, 0.0, 0.0], [0.0, 0.0, 0.0]]);
        it.corners[7] = [1.0, 1.0, 1.5];
        turn_all(it);
        it.faces[0] = vec![2, 6, 13, 0];
        it.faces.push(vec![0, 99]);
    });
    let name = |solid: &Solid| {
        let debug = format!("{:?}", error(builder(solid)));
        debug.split(' ').next().unwrap_or_default().to_string()
    };
    assert_eq!(name(&solid), "Coordinate");
    solid.corners[12] = [0.0; 3];
    assert_eq!(name(&solid), "ShortRing");
    solid.faces[10].push(0);
    assert_eq!(name(&solid), "NoSuchVertex");
    solid.faces[10][1] = 1;
    assert_eq!(name(&solid), "RepeatedVertex");
    solid.faces[10] = vec![0, 1, 3];
    assert_eq!(name(&solid), "SameDirection");
    solid.faces.pop();
    assert_eq!(name(&solid), "OpenEdge");
    solid.faces[0] = vec![2, 6, 4, 0];
    assert_eq!(name(&solid), "UnusedVertex");
    solid.corners.truncate(12);
    solid.corners[0] = solid.corners[1];
    assert_eq!(name(&solid), "Shells");
    solid.corners.truncate(8);
    solid.faces.truncate(6);
    assert_eq!(name(&solid), "ShortEdge");
    solid.corners[0][0] = -1.0;
    assert_eq!(name(&solid), "NotFlat");
    solid.corners[7][2] = 1.0;
    assert_eq!(name(&solid), "Clockwise");
    turn_all(&mut solid);
    builds(builder(&solid));
}
