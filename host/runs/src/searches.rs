//! The answer of the axis search that the text's query stands for, and the comparison of two answers.

use cases::{convert, same};
use oracle::core::NULL_INDEX;
use oracle::open::{AxisQuery, SeparatingAxis, SeparatingFeature};
use probes::{Axis, Searched, Vec3};

const ZERO: Axis = Axis {
    normal: Vec3 {
        x: 0.0,
        y: 0.0,
        z: 0.0,
    },
    separation: 0.0,
    index_a: 0,
    index_b: 0,
};

/// What no case fills.
const NOTHING: Searched = Searched {
    apart: false,
    kind: 0,
    pair: false,
    separation: 0.0,
    index_a: 0,
    index_b: 0,
    face_a: ZERO,
    face_b: ZERO,
    edge: ZERO,
};

/// The two cases: an axis apart, or both faces with the edge pair. Panics where the text found no face of a side, which
/// accepted input cannot give.
pub fn answer(query: &AxisQuery) -> Searched {
    let (face_a, face_b) = (axis(&query.face_a), axis(&query.face_b));
    let edge = axis(&query.edge);
    let kind = query.separated_feature;
    let apart = match kind {
        SeparatingFeature::FaceAxisA => Some(face_a),
        SeparatingFeature::FaceAxisB => Some(face_b),
        SeparatingFeature::EdgePairAxis => Some(edge),
        _ => None,
    };
    if let Some(axis) = apart {
        return Searched {
            apart: true,
            kind: kind as u8,
            separation: axis.separation,
            index_a: axis.index_a,
            index_b: axis.index_b,
            ..NOTHING
        };
    }
    assert!(
        is(&query.face_a) && is(&query.face_b),
        "the text found no face of a side: {query:?}"
    );
    Searched {
        pair: is(&query.edge),
        face_a,
        face_b,
        edge: if is(&query.edge) { edge } else { ZERO },
        ..NOTHING
    }
}

fn is(axis: &SeparatingAxis) -> bool {
    axis.index_a != NULL_INDEX
}

fn axis(axis: &SeparatingAxis) -> Axis {
    Axis {
        normal: convert::ours(axis.normal),
        separation: axis.separation,
        index_a: axis.index_a as u8,
        index_b: axis.index_b as u8,
    }
}

/// Equal in every field, any NaN being equal to any other.
pub fn same_answers(a: &Searched, b: &Searched) -> bool {
    (a.apart, a.kind, a.pair) == (b.apart, b.kind, b.pair)
        && same(a.separation, b.separation)
        && (a.index_a, a.index_b) == (b.index_a, b.index_b)
        && same_axes(&a.face_a, &b.face_a)
        && same_axes(&a.face_b, &b.face_b)
        && same_axes(&a.edge, &b.edge)
}

fn same_axes(a: &Axis, b: &Axis) -> bool {
    let floats = |axis: &Axis| {
        let Vec3 { x, y, z } = axis.normal;
        [x, y, z, axis.separation]
    };
    let equal = floats(a)
        .into_iter()
        .zip(floats(b))
        .all(|(x, y)| same(x, y));
    equal && (a.index_a, a.index_b) == (b.index_a, b.index_b)
}
