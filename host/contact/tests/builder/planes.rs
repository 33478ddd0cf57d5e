//! Area, flatness, volume, the way the rings go round, convexity, and the library's rule.

use super::*;

#[test]
fn no_area() {
    let wanted = BuildError::NoArea { face: 1 };
    let beside = |distance| changed(tetrahedron(), |it| it.corners[3] = [0.5, 0.0, distance]);
    for distance in [0.0, 1e-13] {
        says(builder(&beside(distance)), wanted, "face 1 has no area");
    }
    let found = error(builder(&beside(1e-11)));
    assert!(matches!(found, BuildError::NoVolume { .. }), "{found:?}");
}

/// A corner that is raised by so much makes two corners lie half as deep below the two others.
#[test]
fn not_flat() {
    let raised = |by: f64| builder(&changed(cube(), |cube| cube.corners[7][0] += by));
    let found = error(raised(0.01));
    let BuildError::NotFlat {
        face: 1,
        vertex: vertex @ (3 | 5),
        highest: highest @ (1 | 7),
        distance,
        tolerance: FLAT_TOLERANCE,
        unit: Unit::Metres,
    } = found
    else {
        panic!("{found:?}");
    };
    assert!((distance - 0.005).abs() < 1e-5, "{distance}");
    let words = format!(
        "face 1 is not flat: its vertex {vertex} lies {distance} m below its vertex {highest}, and 0.0005 m is allowed"
    );
    assert!(found.to_string().contains(&words), "{found}");

    builds(raised(0.0009));
    assert!(matches!(error(raised(0.0011)), BuildError::NotFlat { .. }));
    builds(raised(0.01).flat_within(0.006));
    let strict = |metres| builder(&cube().sheared([1e-4, 0.3])).flat_within(metres);
    builds(strict(1e-6));
    for nothing in [0.0, -1.0, f32::NAN] {
        let found = error(strict(nothing));
        assert!(
            matches!(found, BuildError::NotFlat { tolerance: 0.0, .. }),
            "{found:?}"
        );
        builds(builder(&cube()).flat_within(nothing));
    }
}

#[test]
fn no_volume() {
    let sheet = changed(tetrahedron(), |it| it.corners[3] = [0.25, 0.25, 0.0]);
    let wanted = BuildError::NoVolume {
        face: 0,
        tolerance: FLAT_TOLERANCE,
        unit: Unit::Metres,
    };
    let words = "every vertex lies within 0.0005 m of the plane of face 0";
    says(builder(&sheet), wanted, words);
    // Which way its rings go is not asked.
    let mut thin = changed(sheet, |it| it.corners[3][2] = 0.0004);
    says(builder(&thin), wanted, words);
    turn_all(&mut thin);
    says(builder(&thin), wanted, words);
    let plate = builder(&block([1.0, 1.0, 0.005]));
    builds(plate.clone());
    let wanted = BuildError::NoVolume {
        face: 4,
        tolerance: 0.01,
        unit: Unit::Metres,
    };
    says(plate.clone().flat_within(0.01), wanted, "plane of face 4");
    builds(plate.flat_within(0.0099));
}

#[test]
fn inside_out() {
    let wanted = |above| BuildError::Clockwise {
        face: 0,
        above,
        unit: Unit::Metres,
    };
    let words = "the ring of face 0 is clockwise as seen from outside, for the mean of all vertices lies 1.0 m above";
    refused(turn_all, wanted(1.0), words);
    // A tolerance does not let it pass, and a thin one is told as such.
    says(
        builder(&changed(cube(), turn_all)).flat_within(1.9),
        wanted(1.0),
        "turn it round",
    );
    let thin = changed(block([0.5 / 1024.0, 1.0, 1.0]), turn_all);
    says(builder(&thin), wanted(0.5 / 1024.0), "turn it round");
}

/// The cube whose top is cut into a dart and a triangle, the dart's ring from any of its corners.
fn with_dart(x: f64, first: usize) -> Solid {
    changed(cube(), |cube| {
        cube.corners.push([x, 0.0, 1.0]);
        cube.faces[5] = vec![4, 5, 8, 7, 6];
        cube.faces[5].rotate_left(first);
        cube.faces.push(vec![5, 7, 8]);
    })
}

#[test]
fn face_not_convex() {
    let wanted = BuildError::FaceNotConvex {
        face: 5,
        vertex: 8,
        from: 5,
        to: 7,
        distance: 0.25,
        tolerance: FLAT_TOLERANCE,
        unit: Unit::Metres,
    };
    let words = "face 5 is not convex: its vertex 8 lies 0.25 m inside the line from its vertex 5 to its vertex 7, and \
                 0.0005 m is allowed";
    for first in 0..5 {
        says(builder(&with_dart(0.75, first)), wanted, words);
        builds(builder(&with_dart(0.9996, first)));
    }
    // It is told before a dent elsewhere, and after a hull that is inside out.
    let mut solid = changed(with_dart(0.75, 0), |it| split(it, 0, [-0.9, 0.0, 0.0]));
    let found = error(builder(&solid));
    assert!(
        matches!(found, BuildError::FaceNotConvex { face: 4, .. }),
        "{found:?}"
    );
    turn_all(&mut solid);
    let found = error(builder(&solid));
    assert!(matches!(found, BuildError::Clockwise { .. }), "{found:?}");
}

/// None of its corners lies far inside the line between its neighbours, and all together do.
#[test]
fn face_not_convex_by_small_steps() {
    let arc = |deep: f64| {
        let solid = changed(cube(), |cube| {
            let steps = (1..40).map(|i| f64::from(i) / 20.0 - 1.0);
            let arc = steps.map(|y| [1.0 - deep * (1.0 - y * y), y, 1.0]);
            cube.corners.extend(arc);
            let hollow = [4, 5].into_iter().chain(8..47).chain([7, 6]);
            let lens = [5, 7].into_iter().chain((8..47).rev());
            cube.faces.truncate(5);
            cube.faces
                .extend([hollow.collect(), lens.collect::<Vec<usize>>()]);
        });
        builder(&solid)
    };
    let found = error(arc(0.05));
    let BuildError::FaceNotConvex {
        face: 5,
        vertex: 27,
        from: 5,
        to: 7,
        distance,
        ..
    } = found
    else {
        panic!("{found:?}");
    };
    assert!((distance - 0.05).abs() < 1e-6, "{distance}");
    builds(arc(0.0004));
}

/// A corner more, and triangles from the face's sides to it in place of the face.
fn split(solid: &mut Solid, face: usize, corner: [f64; 3]) {
    let (number, ring) = (solid.corners.len(), solid.faces.remove(face));
    solid.corners.push(corner);
    let sides = ring.iter().zip(ring.iter().cycle().skip(1));
    let triangles = sides.map(|(&from, &to)| vec![from, to, number]);
    solid.faces.extend(triangles);
}

#[test]
fn not_convex() {
    let dent = |z| builder(&changed(cube(), |cube| split(cube, 5, [0.0, 0.0, z])));
    let found = error(dent(0.99));
    let BuildError::NotConvex {
        face: 5,
        vertex: 6,
        distance,
        tolerance: FLAT_TOLERANCE,
        unit: Unit::Metres,
    } = found
    else {
        panic!("{found:?}");
    };
    assert!((distance - 0.02).abs() < 1e-5, "{distance}");
    let words =
        format!("not convex: vertex 6 lies {distance} m outside the plane of face 5, and 0.0005 m");
    assert!(found.to_string().contains(&words), "{found}");
    builds(dent(0.9998));
    builds(dent(1.2));
}

/// A dent is no hull inside out, even where the mean of all vertices lies above most faces.
#[test]
fn deep_dents() {
    let deep = changed(cube(), |cube| split(cube, 5, [0.0, 0.0, -0.9]));
    let found = error(builder(&deep));
    assert!(
        matches!(found, BuildError::NotConvex { face: 5, .. }),
        "{found:?}"
    );

    let shell = changed(tetrahedron(), |it| {
        split(it, 3, [0.125, 0.125, 0.125]);
        // Each side of the dent becomes three, flat together.
        for _ in 0..3 {
            let sum = (it.faces[3].iter()).fold([0.0; 3], |sum: [f64; 3], &corner| {
                [0, 1, 2].map(|axis| sum[axis] + it.corners[corner][axis])
            });
            split(it, 3, sum.map(|x| x / 3.0));
        }
    });
    let found = error(builder(&shell));
    assert!(
        matches!(found, BuildError::NotConvex { face: 3, .. }),
        "{found:?}"
    );
    // Inside out, the first face that has the mean above it is told: the nine of the dent do not.
    let turned = changed(shell, |it| {
        it.faces.rotate_left(3);
        turn_all(it);
    });
    let found = error(builder(&turned));
    assert!(
        matches!(found, BuildError::Clockwise { face: 9, .. }),
        "{found:?}"
    );
}

/// A cube wound twice round two of its corners, with one vertex more in common: two fans of the one shell meet there.
#[test]
fn rule() {
    let wound = doubled(&cube(), &[0, 3, 5], &[(4, 1)]);
    says(
        builder(&wound),
        BuildError::Rule(Rule::Fans),
        "H7 is broken",
    );
}
