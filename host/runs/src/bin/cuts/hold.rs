//! Answers held to lists of corners and of points, one by one.

use cases::calls::same_points;
use cases::same;
use probes::{ClipVertex, Contact, Kept, Places, Point, Vec3, MAX_CLIP_POINTS};

fn same_vector(a: Vec3, b: Vec3) -> bool {
    same(a.x, b.x) && same(a.y, b.y) && same(a.z, b.z)
}

fn same_corner(a: &ClipVertex, b: &ClipVertex) -> bool {
    same_vector(a.position, b.position) && same(a.separation, b.separation) && a.pair == b.pair
}

fn bits(v: Vec3) -> [u32; 3] {
    [v.x, v.y, v.z].map(f32::to_bits)
}

fn zero(v: &ClipVertex) -> bool {
    let pair = [v.pair.owner1, v.pair.index1, v.pair.owner2, v.pair.index2];
    bits(v.position) == [0; 3] && v.separation.to_bits() == 0 && pair == [0; 4]
}

/// Whether the corners are this list.
pub fn corners_are(corners: &[ClipVertex], list: &[ClipVertex]) -> bool {
    corners.len() == list.len() && corners.iter().zip(list).all(|(a, b)| same_corner(a, b))
}

/// Whether the 64 places from corner `from` on, zeros before, are this list, zeros after it and nothing else.
pub fn polygon_is(places: &Places, from: usize, list: &[ClipVertex]) -> bool {
    let count = MAX_CLIP_POINTS;
    let all = places.corners(Kept { from, count });
    list.len() <= count
        && corners_are(&all[..list.len()], list)
        && all[list.len()..].iter().all(zero)
}

/// Whether the contact has these points, places and all, and this normal, which is zero where there are none, and nothing
/// else.
pub fn contact_is(contact: &Contact, normal: Vec3, list: &[Point]) -> bool {
    let normal_is = if list.is_empty() {
        bits(contact.normal) == [0; 3]
    } else {
        same_vector(contact.normal, normal)
    };
    let unused = std::iter::repeat(&Point::UNUSED);
    normal_is
        && usize::from(contact.count) == list.len()
        && list.len() <= contact.points.len()
        && (contact.points.iter().zip(list.iter().chain(unused))).all(|(a, b)| same_points(a, b))
}

/// The candidate at this place as the point that comes of it.
pub fn point_of(list: &[ClipVertex], place: u8) -> Option<Point> {
    let candidate = list.get(usize::from(place))?;
    Some(Point {
        position: candidate.position,
        separation: candidate.separation,
        pair: candidate.pair,
        place,
    })
}
