//! The candidates of a face contact beside the cuts of the text's `build_face_a_contact`, and from the candidates to
//! the points beside the text's whole call.

use crate::hold::{contact_is, corners_are};
use cases::pairs::{self, Pair};
use cases::{convert, inputs, met, one_in, same, Numbers, Tally};
use oracle::core::with_length_units;
use oracle::hull::HullData;
use oracle::math_functions::{mul_sv, Quat, Transform};
use oracle::open::{collide_hulls_placed, search, LocalManifold, SatCache, SeparatingFeature};
use oracle::quiet;
use oracle::transcribed::FaceCuts;
use probes::{
    ClipVertex, FeaturePair, Kept, Places, Point, Vec3, MAX_CLIP_POINTS, MAX_MANIFOLD_POINTS,
};
use runs::{accepted, corners};

/// Both hulls in both records.
struct Both {
    pair: Pair,
    a: HullData,
    b: HullData,
}

#[derive(Default)]
struct Met {
    full_cuts: u64,
    one_or_two: u64,
    without_face: u64,
    touching: u64,
    apart: u64,
    full: u64,
    reduced: u64,
    left_out: u64,
}

pub fn run(n: &mut Numbers, count: usize) -> bool {
    let (mut cuts, mut calls) = (Tally::default(), Tally::default());
    let mut m = Met::default();
    for _ in 0..count / 2 {
        let unit = n.unit();
        let pair = pairs::any(n).in_unit(unit);
        let (a, b) = (convert::hull(&pair.a), convert::hull(&pair.b));
        let both = Both { pair, a, b };
        with_length_units(unit.scale(), || {
            one_pair(&both, [&mut cuts, &mut calls], &mut m, n);
        });
    }
    let few = one_in(2000, count);
    cuts.report("candidates of a face contact")
        & met(&[
            ("a 65th corner put out", m.full_cuts, few),
            ("one or two corners left", m.one_or_two, few),
            (
                "no incident face in the text, the transform refused",
                m.without_face,
                0,
            ),
        ])
        & calls.report("face contacts, candidates to points")
        & met(&[
            ("touching", m.touching, one_in(5, count)),
            ("of more than four candidates", m.reduced, one_in(20, count)),
            ("not touching", m.apart, one_in(100, count)),
            ("a 65th corner put out", m.full, few),
            ("left out, since a padding lane won", m.left_out, 0),
        ])
}

/// The text works in the pair's unit.
fn one_pair(both: &Both, [cuts, calls]: [&mut Tally; 2], m: &mut Met, n: &mut Numbers) {
    for i in 0..3 {
        let (a, b) = (both.pair.a.size, both.pair.b.size);
        let (face, vertex) = (n.below(a.faces), n.below(b.vertices));
        let transform = match i {
            0 => convert::transform(inputs::transform(n)),
            1 => overflowing(both.pair.transform, n),
            _ => both.pair.transform,
        };
        candidates(cuts, m, both, transform, face, vertex);
    }
    let transform = both.pair.transform;
    let axis = search(&both.a, &both.b, transform, false).face_a;
    let (face, vertex) = (axis.index_a as usize, axis.index_b as usize);
    if vertex < both.pair.b.size.vertices {
        candidates(cuts, m, both, transform, face, vertex);
        whole(calls, m, both, face, vertex);
    } else {
        m.left_out += 1;
    }
}

/// A quaternion so long that some coordinates overflow and others do not. A cut leaves one or two corners only where
/// some distances are NaN.
fn overflowing(t: Transform, n: &mut Numbers) -> Transform {
    let by = 10f32.powf(n.between(18.0, 19.3) as f32);
    let q = Quat {
        v: mul_sv(by, t.q.v),
        s: by * t.q.s,
    };
    Transform { p: t.p, q }
}

/// What stands in the lists before: it would show in any corner that is made of it.
const BEFORE: ClipVertex = ClipVertex {
    position: Vec3 {
        x: f32::NAN,
        y: f32::NAN,
        z: f32::NAN,
    },
    separation: f32::NAN,
    pair: FeaturePair {
        owner1: 255,
        index1: 255,
        owner2: 255,
        index2: 255,
    },
};

fn ours(both: &Both, transform: Transform, face: usize, vertex: usize) -> (Places, Kept) {
    let (a, b) = (accepted(&both.pair.a), accepted(&both.pair.b));
    let mut places = Places::filled(BEFORE);
    let kept = places.candidates(a, b, convert::our_transform(transform), face, vertex);
    (places, kept)
}

/// One comparison. Where the text panics for want of an incident face, it is that the transform is not an accepted one.
fn candidates(
    t: &mut Tally,
    m: &mut Met,
    both: &Both,
    transform: Transform,
    face: usize,
    vertex: usize,
) {
    let (i, j) = (face as i32, vertex as i32);
    let Some(whole) = quiet(|| {
        let mut cuts = FaceCuts::<128>::default();
        cuts.cut(&both.a, &both.b, transform, i, j);
        cuts.left()
    }) else {
        let unit = both.pair.unit().per_metre();
        let refused = !probes::transform_accepted(unit, convert::our_transform(transform));
        t.compare(refused, || {
            format!("no incident face at {vertex} for {face} by {transform:?}")
        });
        m.without_face += 1;
        return;
    };
    let panics =
        quiet(|| FaceCuts::<64>::default().cut(&both.a, &both.b, transform, i, j)).is_none();
    let whole: Vec<ClipVertex> = whole.iter().map(corners::our_corner).collect();
    let (places, kept) = ours(both, transform, face, vertex);
    let full = kept.count > MAX_CLIP_POINTS;
    let same = full || corners_are(&places.corners(kept), &whole);
    let equal = full == panics && kept.count == whole.len() && same;
    t.compare(equal, || {
        let Pair { a, b, .. } = &both.pair;
        format!(
            "candidates of {face}, {vertex} by {transform:?}: {kept:?}, {places:?}, {whole:?}: {a:?} {b:?}"
        )
    });
    m.full_cuts += u64::from(panics);
    m.one_or_two += u64::from([1, 2].contains(&whole.len()));
}

/// The text's call with its own cache type 6, beside the candidates, their images and the picks; by the copy of the text, for
/// the places. The type is retired, and here a door into the text: it builds the contact on the best face of A and ends there,
/// which no function of the text's does that can be called.
fn whole(t: &mut Tally, m: &mut Met, both: &Both, face: usize, vertex: usize) {
    let transform = both.pair.transform;
    let theirs = quiet(|| {
        let mut manifold = LocalManifold::default();
        let mut cache = SatCache {
            type_: SeparatingFeature::ManualFaceAxisA as u8,
            ..SatCache::default()
        };
        let capacity = MAX_MANIFOLD_POINTS as i32;
        collide_hulls_placed(
            &mut manifold,
            capacity,
            &both.a,
            &both.b,
            transform,
            &mut cache,
        );
        (manifold, cache)
    });
    let (places, kept) = ours(both, transform, face, vertex);
    let full = kept.count > MAX_CLIP_POINTS;
    let normal = convert::ours(both.a.planes[face].normal);
    let unit = both.pair.unit().per_metre();
    let least = if full {
        f32::NAN
    } else {
        places.least_separation(kept)
    };
    let touching = !full && probes::touching(unit, kept.count, least);
    let equal = match theirs {
        None => full,
        Some((manifold, cache)) if touching => {
            let contact = places.reduce_manifold_points(unit, kept, normal);
            let made = &manifold.points[..manifold.point_count as usize];
            let made: Vec<Point> = made.iter().map(convert::our_contact_point).collect();
            let next = (SeparatingFeature::FaceAxisA as u8, face as u8, vertex as u8);
            contact_is(&contact, convert::ours(manifold.normal), &made)
                && same(cache.separation, least)
                && (cache.type_, cache.index_a, cache.index_b) == next
        }
        Some((manifold, cache)) => {
            !full
                && manifold.point_count == 0
                && cache.type_ == SeparatingFeature::InvalidAxis as u8
        }
    };
    t.compare(equal, || {
        let Pair { a, b, .. } = &both.pair;
        format!("contact of {face}, {vertex} by {transform:?}: {kept:?}, {places:?}, {theirs:?}: {a:?} {b:?}")
    });
    m.full += u64::from(theirs.is_none());
    m.touching += u64::from(theirs.is_some() && touching);
    m.apart += u64::from(theirs.is_some() && !touching);
    m.reduced += u64::from(theirs.is_some() && touching && kept.count > 4);
}
