//! Document 01's marked example, two cubes of half-size 1, through the builder and the collision call; and the panics
//! that callers read as refusals.
#![cfg(rust_text)]

use oracle::hull::{find_hull_support_vertex, HullData};
use oracle::math_functions::*;
use oracle::open::*;

/// Vertex `i` has its sign on axis `k` in bit `k`. Faces are -x, +x, -y, +y, -z, +z, each ring counter-clockwise seen
/// from outside.
fn cube() -> HullData {
    let rings: Vec<Vec<u8>> = (0..6).map(cube_ring).collect();
    let mut numbers = vec![-1.0, -1.0, -1.0, 1.0, 1.0, 1.0];
    for axis in 0..3 {
        numbers.extend((0..8).map(|i| sign(i >> axis)));
    }
    for face in 0..6 {
        let mut plane = [0.0, 0.0, 0.0, 1.0];
        plane[face / 2] = sign(face);
        numbers.extend(plane);
    }
    oracle::hull(&numbers, &links(&rings, 8), 8, 24, 6)
}

/// A square pyramid, its base down at z = -1 and its tip at z = 1, with this z in its three padding lanes.
fn pyramid(padding_z: f32) -> HullData {
    let rings: [&[u8]; 5] = [
        &[0, 3, 2, 1],
        &[0, 1, 4],
        &[1, 2, 4],
        &[2, 3, 4],
        &[3, 0, 4],
    ];
    let mut numbers = vec![-1.0, -1.0, -1.0, 1.0, 1.0, 1.0];
    numbers.extend([-1.0, 1.0, 1.0, -1.0, 0.0, -1.0, -1.0, -1.0]);
    numbers.extend([-1.0, -1.0, 1.0, 1.0, 0.0, -1.0, -1.0, -1.0]);
    numbers.extend([-1.0, -1.0, -1.0, -1.0, 1.0]);
    numbers.extend([padding_z; 3]);
    numbers.extend([0.0, 0.0, -1.0, 1.0]);
    let k = 1.0 / 5.0f32.sqrt();
    for (x, y) in [(0.0, -2.0), (2.0, 0.0), (0.0, 2.0), (-2.0, 0.0)] {
        numbers.extend([k * x, k * y, k, k]);
    }
    oracle::hull(
        &numbers,
        &links(&rings.map(|ring| ring.to_vec()), 5),
        5,
        16,
        5,
    )
}

/// 1 where the lowest bit is set, else -1.
fn sign(bits: usize) -> f32 {
    if bits & 1 == 1 {
        1.0
    } else {
        -1.0
    }
}

fn cube_ring(face: usize) -> Vec<u8> {
    let axis = face / 2;
    let (u, v) = ((axis + 1) % 3, (axis + 2) % 3);
    let mut ring: Vec<u8> = [(0, 0), (1, 0), (1, 1), (0, 1)]
        .iter()
        .map(|(a, b)| ((face & 1) << axis | a << u | b << v) as u8)
        .collect();
    if face & 1 == 0 {
        ring.reverse();
    }
    ring
}

/// The links of a closed hull from its face rings. Half-edges 2k and 2k+1 are twins, numbered as the rings meet them.
fn links(rings: &[Vec<u8>], vertices: usize) -> Vec<u8> {
    let sides = |ring: &Vec<u8>| -> Vec<(u8, u8)> {
        (0..ring.len())
            .map(|i| (ring[i], ring[(i + 1) % ring.len()]))
            .collect()
    };
    let mut ends: Vec<(u8, u8)> = Vec::new();
    for (from, to) in rings.iter().flat_map(sides) {
        if !ends.contains(&(from, to)) {
            ends.extend([(from, to), (to, from)]);
        }
    }
    let number = |side: (u8, u8)| ends.iter().position(|&e| e == side).unwrap() as u8;

    let mut half_edges = vec![[0; 4]; ends.len()];
    for (face, ring) in rings.iter().enumerate() {
        let sides = sides(ring);
        for (i, &side) in sides.iter().enumerate() {
            let next = number(sides[(i + 1) % sides.len()]);
            let own = number(side);
            half_edges[own as usize] = [next, own ^ 1, side.0, face as u8];
        }
    }

    let from = |vertex| ends.iter().position(|e| e.0 == vertex).unwrap() as u8;
    let mut links: Vec<u8> = (0..vertices as u8).map(from).collect();
    links.extend(half_edges.iter().flatten());
    links.extend(rings.iter().map(|ring| number((ring[0], ring[1]))));
    links
}

/// B's frame at this x, not turned.
fn at_x(x: f32) -> Transform {
    at(Vec3 { x, ..VEC3_ZERO })
}

/// B's frame at this place, not turned.
fn at(p: Vec3) -> Transform {
    Transform {
        p,
        q: Quat {
            v: VEC3_ZERO,
            s: 1.0,
        },
    }
}

type Collide = fn(&mut LocalManifold, i32, &HullData, &HullData, Transform, &mut SatCache);

fn collide(x: f32, capacity: i32, cache: &mut SatCache) -> LocalManifold {
    let mut manifold = LocalManifold::default();
    collide_hulls(&mut manifold, capacity, &cube(), &cube(), at_x(x), cache);
    manifold
}

#[test]
fn builder_fills_the_record() {
    let hull = cube();
    assert_eq!((hull.points.len(), hull.edges.len()), (8, 24));
    assert_eq!((hull.soa_vertices.len(), hull.soa_normals.len()), (24, 24));
    assert_eq!(
        hull.soa_normals[..8],
        [-1.0, 1.0, 0.0, 0.0, 0.0, 0.0, 0.0, 0.0]
    );
    for (number, edge) in hull.edges.iter().enumerate() {
        let next = hull.edges[edge.next as usize];
        let after = hull.edges[next.next as usize];
        let [p, q, r] = [edge, &next, &after].map(|e| hull.points[e.origin as usize]);
        let plane = hull.planes[edge.face as usize];
        assert_eq!(edge.twin as usize, number ^ 1);
        assert_eq!(hull.edges[number ^ 1].origin, next.origin);
        assert_eq!(plane_separation(plane, p), 0.0);
        assert_eq!(dot(cross(sub(q, p), sub(r, q)), plane.normal), 4.0);
    }
}

#[test]
fn support_is_the_lowest_numbered_on_a_tie() {
    let direction = Vec3 {
        y: 1.0,
        ..VEC3_ZERO
    };
    assert_eq!(find_hull_support_vertex(&cube(), direction), 2);
}

#[test]
fn apart_then_cached() {
    let mut cache = SatCache::default();
    let manifold = collide(3.0, 4, &mut cache);
    assert_eq!(manifold.point_count, 0);
    assert_eq!((cache.type_, cache.index_a, cache.hit), (2, 1, 0));
    assert_eq!(cache.separation, 1.0);

    let manifold = collide(3.0, 4, &mut cache);
    assert_eq!(manifold.point_count, 0);
    assert_eq!((cache.type_, cache.index_a, cache.hit), (2, 1, 1));
    assert_eq!(cache.separation, 1.0);
}

#[test]
fn touching_faces_tie_and_face_b_wins() {
    let mut cache = SatCache::default();
    let manifold = collide(2.0, 4, &mut cache);
    assert_eq!(manifold.point_count, 4);
    assert_eq!((cache.type_, cache.index_b, cache.hit), (3, 0, 0));
    assert_eq!(cache.separation, 0.0);
    assert_eq!(manifold.normal, at_x(1.0).p);
    for point in &manifold.points[..4] {
        assert_eq!((point.point.x, point.separation), (1.0, 0.0));
    }

    let again = collide(2.0, 4, &mut cache);
    assert_eq!(again, manifold);
    assert_eq!(cache.hit, 1);
}

/// The copy differs from the text in the places alone: the four corners come in their order.
#[test]
fn copy_carries_places() {
    let call = |collide: Collide, type_: u8| {
        let mut manifold = LocalManifold::default();
        let mut cache = SatCache {
            type_,
            ..SatCache::default()
        };
        collide(&mut manifold, 4, &cube(), &cube(), at_x(2.0), &mut cache);
        (manifold, cache)
    };
    for type_ in [0, 3] {
        let (text, cache) = call(collide_hulls, type_);
        let (mut copy, copy_cache) = call(collide_hulls_placed, type_);
        let places = copy.points[..4].iter_mut();
        let places: Vec<i32> = places
            .map(|point| std::mem::take(&mut point.triangle_index))
            .collect();
        assert_eq!(places, [0, 1, 2, 3]);
        assert_eq!((text, cache), (copy, copy_cache));
    }
}

#[test]
fn capacity_below_four_touches_nothing() {
    let given = SatCache {
        separation: 7.0,
        type_: 3,
        index_a: 1,
        index_b: 2,
        hit: 1,
    };
    let mut cache = given;
    let manifold = collide(2.0, 3, &mut cache);
    assert_eq!(manifold.point_count, 0);
    assert_eq!(cache, given);
}

#[test]
fn search_stops_early_only_when_asked() {
    let (a, b) = (cube(), cube());
    let early = search(&a, &b, at_x(3.0), true);
    assert_eq!(early.separated_feature, SeparatingFeature::FaceAxisA);
    assert_eq!((early.face_a.index_a, early.face_a.separation), (1, 1.0));
    assert_eq!((early.face_b.index_b, early.edge.index_a), (-1, -1));

    let full = search(&a, &b, at_x(3.0), false);
    assert_eq!(full.separated_feature, SeparatingFeature::InvalidAxis);
    assert_eq!(full.face_a, early.face_a);
    assert_eq!((full.face_b.index_b, full.face_b.separation), (0, 1.0));
}

#[test]
fn incident_face_and_its_polygon() {
    let hull = cube();
    let plane = hull.planes[1];
    let vertex = find_hull_support_vertex(&hull, neg(plane.normal));
    let face = find_incident_face(&hull, plane.normal, vertex);
    assert_eq!(face, 0);

    let polygon = build_polygon(at_x(2.0), &hull, face, plane);
    assert_eq!(polygon.len(), 4);
    for vertex in polygon {
        assert_eq!((vertex.position.x, vertex.separation), (1.0, 0.0));
        assert_eq!((vertex.pair.owner1, vertex.pair.owner2), (1, 1));
    }
}

/// With a position that is no number no face becomes the best, and the text panics. Here that is refusal 3, and accepted
/// input cannot lead there (docs/DIFFERENCES.md).
#[test]
fn no_face_panics() {
    let points = |x| oracle::quiet(move || collide(x, 4, &mut SatCache::default()).point_count);
    assert_eq!(points(2.0), Some(4));
    assert_eq!(points(f32::NAN), None);
}

/// The text's cache type 6, which is retired in ours, is a door to its contact of face A: the cube's top against the pyramid's
/// lowest lane.
#[test]
fn padding_lane_that_wins_panics() {
    let points = |padding_z| {
        oracle::quiet(move || {
            let mut manifold = LocalManifold::default();
            let mut cache = SatCache {
                type_: SeparatingFeature::ManualFaceAxisA as u8,
                ..SatCache::default()
            };
            let above = at(Vec3 {
                z: 2.0,
                ..VEC3_ZERO
            });
            let pyramid = pyramid(padding_z);
            collide_hulls(&mut manifold, 4, &cube(), &pyramid, above, &mut cache);
            manifold.point_count
        })
    };
    assert_eq!(points(-1.0), Some(4));
    assert_eq!(points(-1.5), None);
}
