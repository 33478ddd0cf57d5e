//! The hulls are what their names say, good by the second validator and convex.

use cases::pairs::{long_rings, ring};
use cases::shapes::kinds::{COMPACT, STRETCHED};
use cases::shapes::solids::*;
use cases::shapes::{Link, Shape};
use cases::Numbers;

fn sizes(solid: &Solid) -> (usize, usize, usize) {
    let shape = Shape::new(solid);
    assert_eq!(shape.broken_rule(), 0);
    let size = shape.size;
    (size.vertices, size.half_edges, size.faces)
}

#[test]
fn sizes_are_as_named() {
    assert_eq!(sizes(&block([1.0; 3])), (8, 24, 6));
    assert_eq!(sizes(&frustum(&polygon(12, 1.0), 1.0, 4.0)), (24, 72, 14));
    assert_eq!(sizes(&frustum(&polygon(42, 1.0), 1.0, 4.0)), (84, 252, 44));
    assert_eq!(sizes(&pyramid(64, 1.0, 1.0)), (65, 256, 65));
    assert_eq!(sizes(&antiprism(32, 1.0, 1.0)), (64, 256, 66));
    assert_eq!(sizes(&bipyramid(42, 1.0, 1.0)), (44, 252, 84));
    assert_eq!(sizes(&most_faces(1.0)), (45, 256, 85));
    assert_eq!(sizes(&most_vertices(1.0)), (126, 256, 4));
    assert_eq!(sizes(&flat(4, 1.0)), (4, 12, 4));
    assert_eq!(sizes(&flat(66, 1.0)), (66, 136, 4));
    assert_eq!(sizes(&split_pyramid(3, 125, 1.0, 1.0)), (126, 256, 4));
    assert_eq!(sizes(&split_pyramid(63, 65, 1.0, 1.0)), (66, 256, 64));
    assert_eq!(sizes(&bridged([1.0; 3], 1.0)), (24, 72, 14));
    assert_eq!(sizes(&block([1.0; 3]).doubled(1)), (12, 40, 10));
    let most = frustum(&polygon(25, 1.0), 0.5, 1.0).doubled(0);
    assert_eq!(sizes(&most), (75, 250, 52));
}

/// Faces -x, +x, -y, +y, -z, +z.
#[test]
fn a_block_has_its_faces_in_order() {
    let shape = Shape::new(&block([1.0, 2.0, 3.0]));
    for face in 0..6 {
        let mut plane = [0.0; 4];
        plane[face / 2] = if face % 2 == 0 { -1.0 } else { 1.0 };
        plane[3] = [1.0, 2.0, 3.0][face / 2];
        let from = shape.plane(face);
        assert_eq!(shape.numbers[from..from + 4], plane);
    }
}

#[test]
fn all_are_good() {
    let mut n = Numbers::new(7);
    for (name, solid) in COMPACT.into_iter().chain(STRETCHED) {
        for _ in 0..100 {
            let placed = solid(&mut n).placed(1000.0, &mut n);
            assert_eq!(Shape::any(&placed, &mut n).broken_rule(), 0, "{name}");
        }
    }
    for (name, solid) in COMPACT {
        let far = solid(&mut n).far(&mut n);
        assert_eq!(Shape::any(&far, &mut n).broken_rule(), 0, "{name} far away");
    }
}

/// Every vertex of a ring lies in its plane, and the longest ring is longer than a cut may put out.
#[test]
fn long_rings_are_flat() {
    let mut n = Numbers::new(6);
    let mut longest = 0;
    for _ in 0..1000 {
        let shape = Shape::new(&long_rings(&mut n));
        assert_eq!(shape.broken_rule(), 0);
        let rings = (0..shape.size.faces).map(|face| (face, ring(&shape, face)));
        let (face, ring) = rings.max_by_key(|(_, ring)| ring.len()).expect("a face");
        assert!((65..=125).contains(&ring.len()), "{}", ring.len());
        longest = longest.max(ring.len());
        let from = shape.plane(face);
        for edge in ring {
            let corner = shape.vertex(shape.get(edge, Link::Origin));
            let above = [0, 1, 2].map(|i| corner[i] * shape.numbers[from + i]);
            let above = above.iter().sum::<f32>() - shape.numbers[from + 3];
            assert!(above.abs() < 1e-5, "{above}");
        }
    }
    assert!(longest > 120, "{longest}");
}

/// No vertex lies above a plane.
#[test]
fn all_are_convex() {
    let mut n = Numbers::new(8);
    for (name, solid) in COMPACT.into_iter().chain(STRETCHED) {
        for _ in 0..100 {
            convex(name, &Shape::any(&solid(&mut n).turned(&mut n), &mut n));
        }
    }
    convex("antiprism", &Shape::new(&antiprism(32, 1.0, 1.0)));
    convex("most faces", &Shape::new(&most_faces(1.0)));
    convex("most vertices", &Shape::new(&most_vertices(1.0)));
    convex("long rings", &Shape::new(&split_pyramid(9, 80, 1.0, 1.0)));
}

/// By more than rounding a corner can lift it.
fn convex(name: &str, shape: &Shape) {
    let reach = shape.numbers[..6].iter().fold(0f32, |a, x| a.max(x.abs()));
    for face in 0..shape.size.faces {
        let from = shape.plane(face);
        let [x, y, z, offset] = [0, 1, 2, 3].map(|i| shape.numbers[from + i]);
        for vertex in 0..shape.size.vertices {
            let [a, b, c] = shape.vertex(vertex);
            let above = x * a + y * b + z * c - offset;
            assert!(above <= 1e-4 * reach, "{name}: {above} above a plane");
        }
    }
}

/// Pairs stay side by side whatever else is numbered anew.
#[test]
fn numbering_is_free() {
    let mut n = Numbers::new(9);
    let plain = Shape::new(&block([1.0; 3]));
    let shape = Shape::any(&block([1.0; 3]), &mut n);
    assert_ne!(plain.links, shape.links);
    for edge in 0..24 {
        assert_eq!(shape.get(edge, Link::Twin), edge ^ 1);
    }
}
