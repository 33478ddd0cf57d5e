//! Coordinates, counts, rings, sides, shells and the lengths of edges.

use super::*;

#[test]
fn coordinates() {
    refused(
        |cube| cube.corners[7][1] = -4096.5,
        BuildError::Coordinate {
            vertex: 7,
            axis: 'y',
            value: -4096.5,
            unit: Unit::Metres,
        },
        "vertex 7 has y = -4096.5 m",
    );
    refused(
        |cube| cube.corners[2][0] = f64::INFINITY,
        BuildError::Coordinate {
            vertex: 2,
            axis: 'x',
            value: f32::INFINITY,
            unit: Unit::Metres,
        },
        "vertex 2 has x = inf m",
    );
    let found = error(builder(&changed(cube(), |cube| {
        cube.corners[0][2] = f64::NAN
    })));
    assert!(matches!(
        found,
        BuildError::Coordinate { vertex: 0, axis: 'z', value, .. } if value.is_nan()
    ));
    assert!(found.to_string().contains("vertex 0 has z = NaN m"));
    builds(builder(&block([4096.0; 3])));
}

#[test]
fn counts() {
    let count = |what, found, least, most| BuildError::Count {
        what,
        found,
        least,
        most,
    };
    let corners = |count| HullBuilder::new().vertices((0..count).map(|i| [i as f32, 0.0, 0.0]));
    let faces = |count| (0..count).fold(corners(4), |builder, _| builder.face([0, 1, 2]));
    let vertices = |found| count(Counted::Vertices, found, 4, 128);
    says(
        HullBuilder::new(),
        vertices(0),
        "has 0 vertices, and 4 to 128",
    );
    says(corners(3), vertices(3), "has 3 vertices, and 4 to 128");
    says(
        corners(129),
        vertices(129),
        "has 129 vertices, and 4 to 128",
    );
    let of_faces = |found| count(Counted::Faces, found, 4, 128);
    says(faces(0), of_faces(0), "has 0 faces, and 4 to 128");
    says(faces(3), of_faces(3), "has 3 faces, and 4 to 128");
    says(faces(129), of_faces(129), "has 129 faces, and 4 to 128");
    says(
        HullBuilder::log(43, 1.0, 1.0, 2.0),
        count(Counted::HalfEdges, 258, 12, 256),
        "has 258 half-edges (the sides of all rings), and 12 to 256",
    );
    // The largest sizes that a ring of three corners allows are refused for something else.
    for good in [corners(128), faces(4), faces(85)] {
        assert!(!matches!(
            error(good),
            BuildError::Count {
                what: Counted::HalfEdges,
                ..
            }
        ));
    }
}

#[test]
fn logs() {
    let log = |sides| HullBuilder::log(sides, 1.0, 1.0, 2.0);
    for (sides, found) in [(0, 0), (1, 2), (65, 130), (usize::MAX, 258)] {
        let wanted = BuildError::Count {
            what: Counted::Vertices,
            found,
            least: 4,
            most: 128,
        };
        says(log(sides), wanted, "vertices");
    }
    let wanted = BuildError::ShortRing {
        face: 0,
        corners: 2,
    };
    says(log(2), wanted, "face 0 has 2 corners");
    let inside_out = error(HullBuilder::log(12, 1.0, 1.0, -2.0));
    assert!(matches!(inside_out, BuildError::Clockwise { face: 0, .. }));
    let nan = error(HullBuilder::log(12, 1.0, f32::NAN, 2.0));
    assert!(matches!(nan, BuildError::Coordinate { vertex: 12, .. }));
}

#[test]
fn rings() {
    for corners in [0, 2] {
        refused(
            |cube| cube.faces[3].truncate(corners),
            BuildError::ShortRing { face: 3, corners },
            &format!("the ring of face 3 has {corners} corners, and 3"),
        );
    }
    for vertex in [8, usize::MAX] {
        refused(
            |cube| cube.faces[2][1] = vertex,
            BuildError::NoSuchVertex {
                face: 2,
                vertex,
                vertices: 8,
            },
            &format!("the ring of face 2 names vertex {vertex}, and there are 8"),
        );
    }
    // The ring of a seventh face need not end.
    let seventh = BuildError::NoSuchVertex {
        face: 6,
        vertex: 8,
        vertices: 8,
    };
    says(builder(&cube()).face(0..usize::MAX), seventh, "vertex 8");
    let seventh = BuildError::RepeatedVertex { face: 6, vertex: 7 };
    let endless = (0..8).chain(std::iter::repeat(7));
    says(builder(&cube()).face(endless), seventh, "vertex 7 twice");
    refused(
        |cube| cube.faces[4].push(0),
        BuildError::RepeatedVertex { face: 4, vertex: 0 },
        "the ring of face 4 names vertex 0 twice",
    );
}

#[test]
fn sides() {
    refused(
        |cube| cube.faces[1].reverse(),
        BuildError::SameDirection {
            from: 1,
            to: 5,
            faces: [1, 2],
        },
        "faces 1 and 2 both go from vertex 1 to vertex 5",
    );
    refused(
        |cube| {
            let _ = cube.faces.pop();
        },
        BuildError::OpenEdge {
            face: 0,
            from: 4,
            to: 6,
        },
        "face 0 goes from vertex 4 to vertex 6, and no ring goes back",
    );
    refused(
        |cube| cube.corners.push([0.0; 3]),
        BuildError::UnusedVertex { vertex: 8 },
        "vertex 8 is in no ring",
    );
}

/// There are two shells, and this face is the first that is not of face 0's.
fn two_shells(solid: &Solid, face: usize) {
    let words = format!(
        "the faces make two closed shells, for no way across edges leads from face 0 to face {face}: build a hull of each"
    );
    let wanted = BuildError::Shells { shells: 2, face };
    says(builder(solid), wanted, &words);
}

#[test]
fn shells() {
    let beside = |x: f64| cube().moved([x, 0.0, 0.0]);
    let apart = cube().joined(&beside(50.0));
    two_shells(&apart, 6);
    let three = apart.joined(&beside(100.0));
    let wanted = BuildError::Shells { shells: 3, face: 6 };
    says(builder(&three), wanted, "make 3 closed shells");

    // Side by side, and one in the other: as a solid of its own, and as the inside of a hollow one.
    two_shells(&cube().joined(&beside(2.0)), 6);
    let mut small = block([0.5; 3]);
    two_shells(&cube().joined(&small), 6);
    turn_all(&mut small);
    two_shells(&cube().joined(&small), 6);
    // No vertex lies outside a face: neither of the same cube twice, nor where the two have a vertex in common.
    two_shells(&doubled(&cube(), &[], &[]), 6);
    two_shells(&doubled(&tetrahedron(), &[0], &[]), 4);

    // Faces are told as they were given, in whatever order.
    let mixed = changed(apart.clone(), |it| it.faces.swap(2, 11));
    two_shells(&mixed, 2);
    let mixed = changed(apart, |it| it.faces.swap(0, 11));
    two_shells(&mixed, 1);

    let long = grown_together(&cube(), 1, &beside(2.0), 0);
    builds(builder(&long));
}

#[test]
fn holes() {
    let hole = |vertices, edges, faces| BuildError::Hole {
        vertices,
        edges,
        faces,
    };
    let words = "a hole through the hull, for 16 vertices - 32 edges + 16 faces is 0, and 2 without a hole: cut it";
    says(builder(&square_ring()), hole(16, 32, 16), words);
    let other = square_ring().moved([4.0, 0.0, 0.0]);
    let two = grown_together(&square_ring(), 1, &other, 3);
    says(builder(&two), hole(28, 60, 30), "30 faces is -2, and 2");
    // Together with a box there is no hole by the numbers, and there are two shells.
    two_shells(&cube().joined(&square_ring()), 6);

    // A cube wound twice round four of its corners: a hole that no plane tells of.
    let wound = doubled(&cube(), &[0, 3, 5, 6], &[(4, 1), (5, 7)]);
    says(builder(&wound), hole(12, 24, 12), "12 faces is 0, and 2");
}

#[test]
fn short_edges() {
    let wanted = BuildError::ShortEdge {
        from: 0,
        to: 4,
        length: 0.0008,
        least: 1.0 / 1024.0,
        unit: Unit::Metres,
    };
    let words = "from vertex 0 to vertex 4 is too short: on no axis are its ends more than 0.0008 m apart, and \
                 0.0009765625 m";
    says(builder(&block([1.0, 1.0, 0.0004])), wanted, words);
    builds(builder(&block([1.0, 1.0, 0.5 / 1024.0])));
    // It is the greatest difference that counts, and neither the sum nor the distance.
    let aslant = changed(tetrahedron(), |it| it.corners[3] = [0.0, 0.0009, -0.0009]);
    let wanted = BuildError::ShortEdge {
        from: 3,
        to: 0,
        length: 0.0009,
        least: 1.0 / 1024.0,
        unit: Unit::Metres,
    };
    says(builder(&aslant), wanted, "more than 0.0009 m apart");
}

/// The cube of half-size 1 m in each unit, and beside it what its limits refuse.
#[test]
fn units() {
    for unit in Unit::ALL {
        let (by, m) = (f64::from(unit.scale()), unit.symbol());
        let scaled = |half: [f64; 3]| builder(&block(half.map(|x| x * by))).unit(unit);
        let hull = scaled([1.0; 3]).build().expect("a cube");
        assert_eq!((hull.unit(), hull.size().unit), (unit, unit.per_metre()));
        assert_eq!((hull.lend().unit(), broken_rule(&hull)), (Ok(unit), 0));
        builds(scaled([4096.0; 3]));
        let far = unit.farthest();
        let wanted = BuildError::Coordinate {
            vertex: 0,
            axis: 'x',
            value: -far.next_up(),
            unit,
        };
        let words = format!("a coordinate is finite and at most {far} {m} either way");
        let beyond = block([far.next_up().into(), by, by]);
        says(builder(&beyond).unit(unit), wanted, &words);
        builds(scaled([1.0, 1.0, 0.5 / 1024.0]));
        let least = unit.shortest_edge();
        let found = error(scaled([1.0, 1.0, 0.4 / 1024.0]));
        assert!(
            matches!(found, BuildError::ShortEdge { least: told, .. } if told == least),
            "{found}"
        );
        assert!(found
            .to_string()
            .contains(&format!("{least:?} {m} is the least")));
        // Half a millimetre is allowed, whatever the unit is; and what is given is given in the unit.
        let sheet = || scaled([1.0, 1.0, 0.002]);
        builds(sheet());
        let found = error(sheet().flat_within(0.005 * unit.scale()));
        assert!(
            matches!(found, BuildError::NoVolume { face: 4, .. }),
            "{found}"
        );
        let board = HullBuilder::board(4.0, 0.2, 0.05);
        assert_eq!(
            board.clone().unit(unit).build().is_ok(),
            unit.scale() <= 10.0
        );
        assert_eq!(broken_rule(&board.build().expect("in metres")), 0);
    }
}
