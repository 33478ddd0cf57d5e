//! Hulls from vertices and rings: those of the cases come out bit for bit, what is wrong is told with its place, and
//! nothing makes the builder panic.

use cases::shapes::solids::{block, frustum, polygon, Solid};
use cases::shapes::{kinds, Link, Shape};
use cases::{inputs, pairs, Numbers};
use contact::*;
use std::collections::HashSet;

#[path = "builder/errors.rs"]
mod errors;
#[path = "builder/fuzz.rs"]
mod fuzz;
mod shells;

/// The corners are rounded first.
fn builder(solid: &Solid) -> HullBuilder {
    let corners = solid.corners.iter().map(|corner| corner.map(|x| x as f32));
    let rings = solid.faces.iter();
    rings.fold(HullBuilder::new().vertices(corners), |builder, ring| {
        builder.face(ring.iter().copied())
    })
}

/// The number of the first rule that the hull breaks by the second validator, 0 if none.
fn broken_rule(hull: &OwnedHull) -> u8 {
    cases::shapes::broken_rule(hull.lend().lists())
}

fn bits(numbers: &[f32]) -> Vec<u32> {
    numbers.iter().map(|x| x.to_bits()).collect()
}

/// The hull has the numbers of the shape and its links, but for each vertex the first half-edge that starts there.
fn assert_same(hull: &OwnedHull, shape: &Shape, name: &str) {
    assert_eq!(broken_rule(hull), 0, "{name}");
    assert_eq!(hull.size(), shape.size, "{name}");
    assert_eq!(bits(hull.numbers()), bits(&shape.numbers), "{name}");
    let (stored, links) = hull.links().split_at(shape.size.vertices);
    assert_eq!(links, &shape.links[shape.size.vertices..], "{name}");
    let mut first = vec![None; shape.size.vertices];
    for edge in (0..shape.size.faces).flat_map(|face| pairs::ring(shape, face)) {
        first[shape.get(edge, Link::Origin)].get_or_insert(edge as u8);
    }
    let stored: Vec<Option<u8>> = stored.iter().copied().map(Some).collect();
    assert_eq!(stored, first, "{name}");
}

/// Why a solid of the cases is no convex hull, where it is none.
fn refused(name: &str, solid: &Solid, error: BuildError) -> bool {
    match error {
        // Its ring goes to that corner and back.
        BuildError::RepeatedVertex { .. } => {
            name == "with a corner alone in a face" && error == repeated(solid)
        }
        // The one with the most vertices is a polygon with both its sides.
        BuildError::NoVolume { .. } => name == "largest sizes" && solid.corners.len() == 126,
        _ => false,
    }
}

/// How many shells there are, and the first face that is not of face 0's; none where there is one. No two have a corner in
/// common, so that each corner becomes the lowest of its shell.
fn other_shell(solid: &Solid) -> Option<(usize, usize)> {
    let mut lowest: Vec<usize> = (0..solid.corners.len()).collect();
    for ring in solid.faces.iter().cycle().take(solid.faces.len().pow(2)) {
        let least = ring
            .iter()
            .map(|&corner| lowest[corner])
            .min()
            .expect("a corner");
        ring.iter().for_each(|&corner| lowest[corner] = least);
    }
    let shells: HashSet<usize> = lowest.iter().copied().collect();
    let first = lowest[solid.faces[0][0]];
    let face = solid
        .faces
        .iter()
        .position(|ring| lowest[ring[0]] != first)?;
    Some((shells.len(), face))
}

fn repeated(solid: &Solid) -> BuildError {
    let mut faces = solid.faces.iter().enumerate();
    let twice = |(face, ring): (usize, &Vec<usize>)| {
        let mut corners = ring.iter().enumerate();
        let again = corners.find(|(i, corner)| ring[..*i].contains(corner));
        again.map(|(_, &vertex)| BuildError::RepeatedVertex { face, vertex })
    };
    faces.find_map(twice).expect("a corner is named twice")
}

/// A board is a block of the cases.
#[test]
fn boards() {
    let board = HullBuilder::board(400.0, 20.0, 5.0).unit(Unit::Centimetres);
    let mut shape = Shape::new(&block([200.0, 10.0, 2.5]));
    shape.size.unit = 100;
    assert_same(&board.build().expect("a board"), &shape, "a board");
}

/// As they are made; near the origin, mostly turned; numbered anew; and 4000 m away.
#[test]
fn solids_of_the_cases() {
    let mut numbers = Numbers::new(1);
    let n = &mut numbers;
    let (mut built, mut others) = (0, 0);
    let kinds = kinds::COMPACT.iter().chain(&kinds::STRETCHED);
    for (i, (name, kind)) in kinds.enumerate() {
        let compact = i < kinds::COMPACT.len();
        for round in 0..60 {
            let mut solid = match round % 4 {
                0 => kind(n),
                1 => kind(n).placed(30.0, n),
                2 => kind(n).placed(30.0, n).renumbered(n),
                _ if compact => kind(n).far(n),
                _ => kind(n).placed(1000.0, n),
            };
            match builder(&solid).build() {
                Ok(hull) => {
                    assert_same(&hull, &Shape::new(&solid), name);
                    errors::turn_all(&mut solid);
                    let told = builder(&solid).build().map(|_| ());
                    let clockwise = matches!(told, Err(BuildError::Clockwise { face: 0, .. }));
                    assert!(clockwise, "{name}: {told:?}");
                    built += 1;
                }
                Err(error) => {
                    assert!(refused(name, &solid, error), "{name}: {error}");
                    others += 1;
                }
            }
        }
    }
    assert!(built > 800 && others >= 60, "{built} {others}");
}

/// Each kind that is not one shell is told by its shells, and where there is one, by its hole.
#[test]
fn shells_of_the_cases() {
    let mut numbers = Numbers::new(5);
    let n = &mut numbers;
    for kind in kinds::SHELLS {
        for round in 0..40 {
            let mut solid = (kind.solid)(n).placed(30.0, n);
            if round % 2 == 1 {
                solid = solid.renumbered(n);
            }
            let told = builder(&solid).build().map(|_| ());
            let wanted = match other_shell(&solid) {
                Some((shells, face)) => {
                    assert_eq!(shells, kind.shells, "{}", kind.name);
                    BuildError::Shells { shells, face }
                }
                None => BuildError::Hole {
                    vertices: solid.corners.len(),
                    edges: solid.faces.iter().map(Vec::len).sum::<usize>() / 2,
                    faces: solid.faces.len(),
                },
            };
            assert_eq!(told, Err(wanted), "{}", kind.name);
        }
    }
}

/// Of the two zeros the box and the planes have the one that the cases have.
#[test]
fn zeros_keep_their_signs() {
    let mut n = Numbers::new(4);
    for _ in 0..200 {
        let mut solid = errors::tetrahedron();
        for x in solid.corners.as_flattened_mut() {
            if *x == 0.0 && n.below(2) == 0 {
                *x = -0.0;
            }
        }
        let hull = builder(&solid).build().expect("a tetrahedron");
        assert_same(&hull, &Shape::new(&solid), "a tetrahedron");
    }
}

fn at(p: [f64; 3]) -> Transform {
    Transform {
        p: inputs::rounded(p),
        q: Quat::IDENTITY,
    }
}

fn first_call(a: &OwnedHull, b: &OwnedHull, transform: Transform) -> Outcome {
    let mut cache = SatCache::EMPTY;
    collide(&a.lend(), &b.lend(), transform, &mut cache)
}

#[test]
fn logs() {
    let log = HullBuilder::log(12, 0.25, 0.25, 6.0)
        .build()
        .expect("a log");
    let HullSize {
        vertices,
        half_edges,
        faces,
        ..
    } = log.size();
    assert_eq!((vertices, half_edges, faces), (24, 72, 14));

    // The same as a prism of the cases that lies along x, its base turned by half a side: every other corner of 24.
    let base: Vec<[f64; 2]> = polygon(24, 0.25).into_iter().skip(1).step_by(2).collect();
    let mut prism = frustum(&base, 1.0, 6.0);
    for corner in &mut prism.corners {
        corner.rotate_right(1);
    }
    assert_same(&log, &Shape::new(&prism), "a log");

    for sides in 3..=42 {
        let log = HullBuilder::log(sides, 0.3, 0.2, 5.0).build();
        let log = log.unwrap_or_else(|error| panic!("{sides} sides: {error}"));
        assert_eq!(broken_rule(&log), 0);
        assert_eq!((log.numbers()[0], log.numbers()[3]), (-2.5, 2.5));
        let lanes = (2 * sides).next_multiple_of(4);
        for vertex in 0..2 * sides {
            let [x, y, z] = [0, 1, 2].map(|axis| log.numbers()[6 + axis * lanes + vertex]);
            let (end, radius) = if vertex < sides {
                (-2.5, 0.3)
            } else {
                (2.5, 0.2)
            };
            assert_eq!(x, end);
            assert!((y.hypot(z) - radius).abs() < 1e-7, "{y} {z}");
        }
    }
}

/// Flat side to flat side, 2 mm deep, and corner to corner, 1 cm deep.
#[test]
fn logs_side_by_side() {
    let log = HullBuilder::log(12, 0.25, 0.25, 6.0)
        .build()
        .expect("a log");
    let (sin, cos) = 15f64.to_radians().sin_cos();
    let apart = 2.0 * 0.25 * cos - 0.002;
    let flat = at([0.5, apart, 0.0]);
    let outcome = first_call(&log, &log, flat);
    assert_eq!(outcome.refusal(), None);
    assert_eq!(outcome.points().len(), 4);
    let near = |a: f32, b: f64| (f64::from(a) - b).abs() < 1e-5;
    for point in outcome.points() {
        assert!(near(point.separation, -0.002), "{point:?}");
    }
    let normal = outcome.contact.normal;
    assert!(near(normal.x, 0.0) && near(normal.y, 1.0) && near(normal.z, 0.0));

    let deep = 2.0 * 0.25 - 0.01;
    let corners = at([0.5, deep * cos, deep * sin]);
    let outcome = first_call(&log, &log, corners);
    assert_eq!(outcome.refusal(), None);
    assert!(!outcome.points().is_empty());
}

/// The cube of tests/cubes.rs, whose faces have the same rings: document 01's runs, and any others.
#[test]
fn a_cube_answers_as_the_other_one() {
    let (cube, shape) = (block([1.0; 3]), Shape::new(&block([1.0; 3])));
    let hull = builder(&cube).build().expect("a cube");
    assert_same(&hull, &shape, "a cube");

    let mut cache = SatCache::EMPTY;
    let outcome = collide(&hull.lend(), &hull.lend(), at([3.0, 0.0, 0.0]), &mut cache);
    assert_eq!(outcome.accepted(), Ok(Contact::EMPTY));
    assert_eq!((cache.separation(), cache.kind, cache.index_a), (1.0, 2, 1));
    let mut cache = SatCache::EMPTY;
    let outcome = collide(&hull.lend(), &hull.lend(), at([2.0, 0.0, 0.0]), &mut cache);
    assert_eq!((outcome.points().len(), outcome.contact.normal.x), (4, 1.0));
    assert_eq!((cache.kind, cache.separation), (3, 0));

    let other = Hull::from(shape.lent());
    let mut numbers = Numbers::new(2);
    let n = &mut numbers;
    let mut touching = 0;
    let mut caches = [SatCache::EMPTY; 2];
    for _ in 0..2000 {
        let p = [0.0; 3].map(|_: f64| n.between(-2.0, 2.0));
        let q = inputs::rotation(n);
        let transform = Transform { q, ..at(p) };
        let [ours, theirs] = &mut caches;
        let outcome = collide(&hull.lend(), &hull.lend(), transform, ours);
        assert_eq!(outcome, collide(&other, &other, transform, theirs));
        assert_eq!(ours, theirs);
        touching += usize::from(!outcome.points().is_empty());
    }
    assert!(touching > 500, "{touching}");
}
