//! The settled pairs are what their classes say, by the text's own search.
#![cfg(rust_text)]

use cases::settled::{Class, Pair, Stack};
use cases::{convert, Numbers};
use oracle::math_functions::{dot, rotate_vector, Vec3};
use oracle::open::{search, AxisQuery, SeparatingFeature};

/// A stack, and the text's answer to each pair.
fn searched(seed: u64) -> (Stack, Vec<AxisQuery>) {
    let stack = Stack::new(64, 2000, &mut Numbers::new(seed));
    let hulls: Vec<_> = stack.logs.iter().map(convert::hull).collect();
    let answers = (stack.pairs.iter())
        .map(|pair| {
            let transform = convert::transform(pair.transform);
            search(&hulls[pair.a], &hulls[pair.b], transform, true)
        })
        .collect();
    (stack, answers)
}

/// The cosine of the angle between the two axes, either way.
fn between_axes(pair: &Pair) -> f32 {
    let axis = Vec3 {
        x: 0.0,
        y: 0.0,
        z: 1.0,
    };
    let rotation = convert::rotation(pair.transform.q);
    dot(rotate_vector(rotation, axis), axis).abs()
}

#[test]
fn logs_and_shares_are_as_named() {
    let (stack, _) = searched(1);
    for log in &stack.logs {
        let size = log.size;
        assert_eq!(log.broken_rule(), 0);
        assert_eq!((size.vertices, size.half_edges, size.faces), (24, 72, 14));
    }
    for class in Class::ALL {
        let of_class = stack.pairs.iter().filter(|pair| pair.class == class);
        assert_eq!(of_class.count(), 100 * class.share(), "{class:?}");
    }
}

/// They touch, and lie a few millimetres deep; up to 2 cm by the text's axes, which leave out near-parallel edges.
#[test]
fn pairs_touch_or_are_apart() {
    for seed in 1..4 {
        let (stack, answers) = searched(seed);
        for (pair, answer) in stack.pairs.iter().zip(answers) {
            let apart = answer.separated_feature != SeparatingFeature::InvalidAxis;
            assert_eq!(apart, pair.class == Class::Apart, "{pair:?}: {answer:?}");
            if !apart {
                let faces = [answer.face_a.separation, answer.face_b.separation];
                let most = faces.into_iter().fold(answer.edge.separation, f32::max);
                assert!((-0.02..0.0001).contains(&most), "{pair:?}: {answer:?}");
            }
        }
    }
}

#[test]
fn axes_lie_as_the_class_says() {
    let (stack, answers) = searched(4);
    for (pair, answer) in stack.pairs.iter().zip(answers) {
        let cosine = between_axes(pair);
        match pair.class {
            // A side flat on a side: the taper tilts the axes by less than two degrees.
            Class::Flat => {
                assert!(cosine > 0.999, "{pair:?}");
                let facing = dot(answer.face_a.normal, answer.face_b.normal);
                assert!(facing > 0.99999, "{pair:?}: {answer:?}");
            }
            Class::Rolled => assert!(cosine > 0.9998, "{pair:?}"),
            Class::Crossed => assert!(cosine < 0.966, "{pair:?}"),
            Class::Apart => {}
        }
    }
}

/// As it is with neighbours in a stack.
#[test]
fn a_face_separates_most_that_are_apart() {
    let (stack, answers) = searched(5);
    let apart = stack.pairs.iter().filter(|pair| pair.class == Class::Apart);
    let by_face = answers.iter().filter(|answer| {
        let feature = answer.separated_feature;
        [SeparatingFeature::FaceAxisA, SeparatingFeature::FaceAxisB].contains(&feature)
    });
    assert!(4 * by_face.count() > 3 * apart.count());
}
