//! H9: whether a record holds one closed shell without a hole.

use super::hull::{cube, of_loops, tetrahedron, Hull};
use super::{FACE, NEXT, ORIGIN, TWIN};
use std::f32::consts::TAU;

/// V - H/2 + F.
fn euler(hull: &Hull) -> i32 {
    let [v, h, f] = [
        hull.vertex_edges.len(),
        hull.half_edges.len(),
        hull.face_edges.len(),
    ]
    .map(|count| count as i32);
    v - h / 2 + f
}

/// At each side's angle a corner of each of these radii and heights, in this order.
fn turned_about(sides: u8, profile: &[[f32; 2]]) -> Vec<[f32; 3]> {
    (0..sides)
        .map(|side| TAU * f32::from(side) / f32::from(sides))
        .flat_map(|angle| {
            let at = move |&[radius, z]: &[f32; 2]| [radius * angle.cos(), radius * angle.sin(), z];
            profile.iter().map(at).collect::<Vec<_>>()
        })
        .collect()
}

/// A torus: V 4n, H 16n, F 4n. Corners of a side: outer below, outer above, inner above, inner below.
fn ring_of_blocks(sides: u8) -> Hull {
    let corners = turned_about(sides, &[[5.0, -1.0], [5.0, 1.0], [3.0, 1.0], [3.0, -1.0]]);
    let loops = (0..sides).flat_map(|side| {
        let (here, there) = (4 * side, 4 * ((side + 1) % sides));
        (0..4u8).map(move |i| {
            let j = (i + 1) % 4;
            vec![here + i, there + i, there + j, here + j]
        })
    });
    of_loops(&corners, &loops.collect::<Vec<_>>())
}

fn prism(sides: u8) -> Hull {
    let corners = turned_about(sides, &[[2.0, -1.0], [2.0, 1.0]]);
    let mut loops = vec![
        (0..sides).rev().map(|i| 2 * i).collect(),
        (0..sides).map(|i| 2 * i + 1).collect(),
    ];
    loops.extend((0..sides).map(|i| {
        let j = (i + 1) % sides;
        vec![2 * i, 2 * j, 2 * j + 1, 2 * i + 1]
    }));
    of_loops(&corners, &loops)
}

fn pyramid(sides: u8) -> Hull {
    let mut corners = turned_about(sides, &[[2.0, 0.0]]);
    corners.push([0.0, 0.0, 1.0]);
    let mut loops = vec![(0..sides).rev().collect()];
    loops.extend((0..sides).map(|i| vec![i, (i + 1) % sides, sides]));
    of_loops(&corners, &loops)
}

/// Flat: a polygon's two sides, each without one corner, which two triangles have. V n, H 2n + 4, F 4.
fn two_sided(sides: u8) -> Hull {
    let corners = turned_about(sides, &[[2.0, 0.0]]);
    let below = [2].into_iter().chain((4..sides).chain([0, 1])).rev();
    let loops = vec![
        [0].into_iter().chain(2..sides).collect(),
        vec![0, 1, 2],
        below.collect(),
        vec![4, 3, 2],
    ];
    of_loops(&corners, &loops)
}

fn many_tetrahedra(count: usize) -> Hull {
    let one = tetrahedron();
    (1..count).fold(one.clone(), |all, place| {
        all.beside(&one, 3.0 * place as f32)
    })
}

/// Whichever pair of half-edges comes first.
fn whichever_first(hull: &Hull, answer: u8) {
    for pair in 0..hull.half_edges.len() as u8 / 2 {
        assert_eq!(hull.with_first_pair(pair).answer(), answer, "pair {pair}");
    }
}

#[test]
fn one_shell() {
    whichever_first(&tetrahedron(), 0);
    whichever_first(&cube(), 0);
    for sides in [3, 4, 12, 42] {
        whichever_first(&prism(sides), 0);
    }
    for sides in [3, 4, 31, 64] {
        whichever_first(&pyramid(sides), 0);
    }
    for sides in [5, 6, 65, 126] {
        whichever_first(&two_sided(sides), 0);
    }
}

/// Two cubes with a common face that is taken out: V 12, H 40, F 10. Corners 8 to 11 are those of the far end.
#[test]
fn two_made_one() {
    let mut corners: Vec<[f32; 3]> = (0..8u8)
        .map(|i| [i & 1, i >> 1 & 1, i >> 2].map(f32::from))
        .collect();
    corners.extend([
        [2.0, 0.0, 0.0],
        [2.0, 1.0, 0.0],
        [2.0, 0.0, 1.0],
        [2.0, 1.0, 1.0],
    ]);
    let loops = [
        [0, 4, 6, 2],
        [0, 1, 5, 4],
        [2, 6, 7, 3],
        [0, 2, 3, 1],
        [4, 5, 7, 6],
        [8, 9, 11, 10],
        [1, 8, 10, 5],
        [3, 7, 11, 9],
        [1, 3, 9, 8],
        [5, 10, 11, 7],
    ];
    let hull = of_loops(&corners, &loops.map(Vec::from));
    assert_eq!((hull.half_edges.len(), euler(&hull)), (40, 2));
    whichever_first(&hull, 0);
}

#[test]
fn two_shells() {
    for (hull, half_edges) in [
        (cube().beside(&cube(), 50.0), 48),
        (cube().beside(&tetrahedron(), 50.0), 36),
        (tetrahedron().beside(&cube(), 50.0), 36),
        (tetrahedron().beside(&prism(40), 50.0), 252),
        (prism(40).beside(&tetrahedron(), 50.0), 252),
    ] {
        assert_eq!((hull.half_edges.len(), euler(&hull)), (half_edges, 4));
        whichever_first(&hull, 9);
    }
}

/// At one place, or with coordinates in common: a shell is told by its numbers.
#[test]
fn equal_coordinates() {
    for by in [0.0, 1.0, 2.0] {
        assert_eq!(cube().beside(&cube(), by).answer(), 9);
    }
}

#[test]
fn many_shells() {
    for count in 2..=21 {
        let hull = many_tetrahedra(count);
        assert_eq!(hull.half_edges.len(), 12 * count);
        assert_eq!(euler(&hull), 2 * count as i32);
        assert_eq!(hull.answer(), 9);
    }
    whichever_first(&many_tetrahedra(21), 9);
}

/// One piece, and Euler's number is 0.
#[test]
fn a_hole() {
    let square = ring_of_blocks(4);
    assert_eq!(
        (square.vertex_edges.len(), square.half_edges.len()),
        (16, 64)
    );
    for sides in 3..=16 {
        let ring = ring_of_blocks(sides);
        assert_eq!(euler(&ring), 0);
        whichever_first(&ring, 9);
    }
}

/// Euler's number is 2 again, but there are two pieces or more.
#[test]
fn a_hole_made_up_for() {
    let ring = ring_of_blocks(4);
    for hull in [
        cube().beside(&ring, 50.0),
        ring.beside(&cube(), 50.0),
        ring.beside(&cube(), 10.0).beside(&ring, 20.0),
    ] {
        assert_eq!(euler(&hull), 2);
        whichever_first(&hull, 9);
    }
}

/// Every other rule is looked at before.
#[test]
fn other_rules_first() {
    let two = cube().beside(&cube(), 50.0);
    for hull in [
        two,
        ring_of_blocks(4),
        cube().beside(&ring_of_blocks(4), 50.0),
    ] {
        let last = hull.half_edges.len() - 1;
        assert_eq!(hull.changed(|h| h.numbers.push(0.0)), 1);
        assert_eq!(hull.changed(|h| h.half_edges[last][NEXT] = 255), 2);
        assert_eq!(hull.changed(|h| h.half_edges[last][TWIN] = last as u8), 3);
        assert_eq!(hull.changed(|h| h.half_edges[last][ORIGIN] ^= 1), 4);
        assert_eq!(hull.changed(|h| h.face_edges.swap(0, 1)), 6);
        assert_eq!(hull.changed(|h| h.vertex_edges.swap(0, 1)), 7);
        assert_eq!(hull.changed(|h| h.numbers[0] = f32::NAN), 8);
    }
    let chain = |h: &mut Hull| {
        for edge in [5, 6, 8] {
            h.half_edges[edge][FACE] = 0;
        }
        h.half_edges[4][NEXT] = 5;
    };
    assert_eq!(many_tetrahedra(2).changed(chain), 5);
}

/// Two shells that share the number of a vertex or of a face are refused as before.
#[test]
fn a_number_shared() {
    let two = cube().beside(&cube(), 50.0);
    let one_vertex = |h: &mut Hull| {
        for edge in &mut h.half_edges {
            edge[ORIGIN] %= 15;
        }
        h.vertex_edges.pop();
    };
    assert_eq!(two.changed(one_vertex), 7);
    let one_face = |h: &mut Hull| {
        for edge in &mut h.half_edges {
            edge[FACE] %= 11;
        }
        h.face_edges.pop();
        h.numbers.truncate(h.numbers.len() - 4);
    };
    assert_eq!(two.changed(one_face), 6);
}
