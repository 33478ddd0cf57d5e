//! Document 01's marked examples of pairs, lanes, cuts and picks, through the door.
#![cfg(rust_text)]

use oracle::constants::{huge, linear_slop, speculative_distance};
use oracle::core::with_length_units;
use oracle::math_functions::*;
use oracle::open::*;

fn at(x: f32, y: f32) -> Vec3 {
    Vec3 { x, y, z: 0.0 }
}

fn pair(owner1: u8, index1: u8, owner2: u8, index2: u8) -> FeaturePair {
    FeaturePair {
        owner1,
        index1,
        owner2,
        index2,
    }
}

fn lanes(value: f32) -> FloatW {
    FloatW {
        x: value,
        y: value,
        z: value,
        w: value,
    }
}

/// The positions that are left of the polygon where x is at most `limit`.
fn cut(polygon: &[Vec3], limit: f32) -> Option<Vec<Vec3>> {
    let polygon: Vec<ClipVertex> = polygon
        .iter()
        .map(|&position| ClipVertex {
            position,
            ..ClipVertex::default()
        })
        .collect();
    let side = Plane {
        normal: at(1.0, 0.0),
        offset: limit,
    };
    let left = clip_polygon(&polygon, side, 0, side)?;
    Some(left.iter().map(|vertex| vertex.position).collect())
}

#[test]
fn pairs_flip() {
    assert_eq!(flip_pair(pair(0, 3, 1, 9)), pair(0, 9, 1, 3));
    assert_eq!(flip_pair(pair(1, 5, 1, 6)), pair(0, 6, 0, 5));
    assert_eq!(
        make_feature_pair(FeatureOwner::ShapeA, 3, FeatureOwner::ShapeB, 9),
        pair(0, 3, 1, 9)
    );
}

#[test]
fn lanes_carry_their_numbers() {
    let embedded = embed_index_w(lanes(1.0), 4, 7);
    assert_eq!(
        [embedded.x, embedded.y, embedded.z, embedded.w].map(f32::to_bits),
        [0x3f800004, 0x3f800005, 0x3f800006, 0x3f800007]
    );
    assert_eq!(min_index_w(embed_index_w(lanes(1.0), 0, 7), 7), 0);
    assert_eq!(min_index_w(embed_index_w(lanes(-1.0), 0, 7), 7), 3);
    assert_eq!(min_w(lanes(1.0), lanes(2.0)), lanes(1.0));
}

#[test]
fn square_is_cut() {
    let square = [at(0.0, 0.0), at(2.0, 0.0), at(2.0, 2.0), at(0.0, 2.0)];
    let half = vec![at(0.0, 0.0), at(1.0, 0.0), at(1.0, 2.0), at(0.0, 2.0)];
    assert_eq!(cut(&square, 1.0), Some(half));
    assert_eq!(cut(&square, 2.0), Some(square.to_vec()));
    assert_eq!(cut(&square, -1.0), Some(vec![]));
}

#[test]
fn sixty_fifth_vertex_is_none() {
    let polygon: Vec<Vec3> = (0..64)
        .map(|i| 2.0 * PI * i as f32 / 64.0)
        .map(|angle| at(angle.cos(), angle.sin()))
        .collect();
    assert_eq!(cut(&polygon, 0.999), None);
    assert_eq!(cut(&polygon, 2.0), Some(polygon));
}

/// The doors of one cut agree, but that one of them has room for a 65th.
#[test]
fn doors_of_a_cut_agree() {
    let side = |offset| Plane {
        normal: at(1.0, 0.0),
        offset,
    };
    let polygon: Vec<ClipVertex> = (0..64)
        .map(|i| 2.0 * PI * i as f32 / 64.0)
        .map(|angle| ClipVertex {
            position: at(angle.cos(), angle.sin()),
            pair: pair(1, 2, 1, 4),
            ..ClipVertex::default()
        })
        .collect();
    let mut buffers = Buffers::default();
    for offset in [2.0, 0.9, 0.0, -0.9, -2.0] {
        let whole = clip_polygon_whole(&polygon, side(offset), 7, side(0.5));
        let prepared = Prepared::new(&polygon);
        let count = buffers.clip_polygon(&prepared, side(offset), 7, side(0.5));
        assert_eq!(count as usize, whole.len());
        let cut = clip_polygon(&polygon, side(offset), 7, side(0.5));
        assert_eq!(cut, Some(whole));
    }
    let whole = clip_polygon_whole(&polygon, side(0.999), 7, side(0.5));
    assert_eq!(whole.len(), 65);
}

#[test]
fn six_points_are_reduced_to_four() {
    let normal = Vec3 {
        z: 1.0,
        ..VEC3_ZERO
    };
    let positions = [
        at(-1.0, -1.0),
        at(0.0, -1.0),
        at(1.0, -1.0),
        at(1.0, 1.0),
        at(0.0, 1.0),
        at(-1.0, 1.0),
    ];
    let mut points = positions.map(|point| LocalManifoldPoint {
        point,
        ..LocalManifoldPoint::default()
    });
    for (point, place) in points.iter_mut().zip(0..) {
        point.triangle_index = place;
    }

    let four = reduce_manifold_points(normal, &points, 6);
    assert_eq!(four.len(), 4);
    for kept in &four {
        assert_eq!(*kept, points[kept.triangle_index as usize]);
    }
    for corner in [at(-1.0, -1.0), at(1.0, -1.0), at(1.0, 1.0), at(-1.0, 1.0)] {
        assert!(four.iter().any(|kept| kept.point == corner));
    }
    assert_eq!(reduce_manifold_points(normal, &points, 3), points[..3]);

    let mut buffers = Buffers::default();
    for count in [6, 3, 6] {
        let left = reduce_manifold_points(normal, &points, count);
        let made = buffers.reduce_manifold_points(normal, &points[..count as usize]);
        assert_eq!(made as usize, left.len());
    }
}

/// Slop, speculative distance and starting support value by their bits: at 10 the slop is a tie to even and not the float nearest
/// 0.05, and at 1000 the low seven bits of the last are not 0.
#[test]
fn lengths_go_by_the_unit() {
    let wanted = [
        (1.0, [0x3ba3_d70a, 0x3ca3_d70a, 0x47c3_5000]),
        (10.0, [0x3d4c_cccc, 0x3e4c_cccc, 0x4974_2400]),
        (100.0, [0x3f00_0000, 0x4000_0000, 0x4b18_9680]),
        (1000.0, [0x40a0_0000, 0x41a0_0000, 0x4cbe_bc20]),
    ];
    for (unit, bits) in wanted {
        let lengths = with_length_units(unit, || [linear_slop(), speculative_distance(), huge()]);
        assert_eq!(lengths.map(f32::to_bits), bits, "{unit}");
    }
}
