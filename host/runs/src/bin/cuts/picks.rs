//! The picks on our side alone: no candidate twice, and four or fewer all.

use super::hold::{contact_is, point_of};
use super::lists;
use cases::{Numbers, Tally};
use probes::Point;

/// Each point is the image of the candidate at its place, no two places are the same, and four or fewer come all and in order.
pub fn each_once(n: &mut Numbers, count: usize) -> Tally {
    let mut t = Tally::default();
    for _ in 0..count {
        let unit = n.unit();
        let (normal, list) = lists::any(unit, n);
        let (places, kept) = lists::lent(&list, n);
        let ours = places.reduce_manifold_points(unit.per_metre(), kept, normal);
        let images = runs::images(&list, normal);
        let made = usize::from(ours.count).min(ours.points.len());
        let taken_at: Vec<u8> = ours.points[..made].iter().map(|p| p.place).collect();
        let taken: Vec<Point> = (taken_at.iter())
            .filter_map(|&place| point_of(&images, place))
            .collect();
        let once = (1..made).all(|i| !taken_at[..i].contains(&taken_at[i]));
        let all = list.len() > 4 || taken_at.iter().copied().eq(0..list.len() as u8);
        t.compare(once && all && contact_is(&ours, normal, &taken), || {
            format!("points of {list:?} with normal {normal:?}: {ours:?}")
        });
    }
    t
}
