//! `clip_polygon` beside the text's.

use super::polygons::{any_plane, cutting, tagged, SORTS};
use crate::hold::polygon_is;
use crate::lists;
use cases::{convert, met, one_in, Numbers, Tally};
use oracle::math_functions::{plane_separation, Plane};
use oracle::open;
use probes::{ClipVertex, Vec3, MAX_CLIP_POINTS};
use runs::corners;

#[derive(Default)]
struct Met {
    all: u64,
    none: u64,
    along: u64,
    full: u64,
    just_full: u64,
    brimful: u64,
    doubled: u64,
}

pub fn run(n: &mut Numbers, count: usize) -> bool {
    let mut good = true;
    let mut m = Met::default();
    for (name, corners) in SORTS {
        let mut t = Tally::default();
        for _ in 0..count {
            let corners = corners(n);
            let reference = any_plane(n);
            let polygon = tagged(&corners, reference, n);
            let mut places = lists::first(&polygon, n);
            let plane = cutting(&corners, n);
            let edge = n.below(256) as u8;
            let given = corners::corners(&polygon);
            let (to, from) = (convert::plane(plane), convert::plane(reference));
            let theirs = open::clip_polygon(&given, to, edge.into(), from);
            let whole = open::clip_polygon_whole(&given, to, edge.into(), from);
            let whole: Vec<ClipVertex> = whole.iter().map(corners::our_corner).collect();
            let kept = &whole[..whole.len().min(MAX_CLIP_POINTS)];

            let left = places.clip_polygon(polygon.len(), plane, edge, reference);
            let full = left > MAX_CLIP_POINTS;
            let same = polygon_is(&places, MAX_CLIP_POINTS, kept);
            let equal = full == theirs.is_none() && left == whole.len() && same;
            t.compare(equal, || {
                format!("{polygon:?} cut by {plane:?} on {edge}, {reference:?}: {left}, {places:?}, {kept:?}")
            });

            m.all += u64::from(whole.len() == given.len());
            m.none += u64::from(whole.is_empty());
            m.along += u64::from(goes_along(&given, to));
            m.full += u64::from(theirs.is_none());
            m.just_full += u64::from(whole.len() == MAX_CLIP_POINTS + 1);
            m.brimful += u64::from(whole.len() == MAX_CLIP_POINTS);
            m.doubled += u64::from(doubles(&whole) > doubles(&polygon));
        }
        good &= t.report(&format!("cuts, {name}"));
    }
    let least = one_in(100, count);
    good & met(&[
        ("as many left", m.all, least),
        ("none left", m.none, least),
        ("a plane along an edge", m.along, least),
        ("a 65th corner put out", m.full, least),
        ("exactly 65", m.just_full, least),
        ("exactly 64", m.brimful, least),
        ("two more at one position", m.doubled, least),
    ])
}

/// Whether two neighbours lie on the plane.
fn goes_along(list: &[open::ClipVertex], plane: Plane) -> bool {
    let on_plane = |v: &open::ClipVertex| plane_separation(plane, v.position) == 0.0;
    list.windows(2).any(|pair| pair.iter().all(on_plane))
}

/// How many neighbours stand at one position.
fn doubles(list: &[ClipVertex]) -> usize {
    let pairs = list.windows(2);
    pairs
        .filter(|pair| at_one_position(&pair[0], &pair[1]))
        .count()
}

/// The same bits in each coordinate.
fn at_one_position(a: &ClipVertex, b: &ClipVertex) -> bool {
    let bits = |v: Vec3| [v.x, v.y, v.z].map(f32::to_bits);
    bits(a.position) == bits(b.position)
}
