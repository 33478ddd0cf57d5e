//! How often the places of a contact's points tell something.

use super::{Answer, Call, Work};
use crate::met;
use oracle::open::{flip_pair, ClipVertex};
use records::Point;

#[derive(Default)]
pub struct Placed {
    /// Contacts on a face with more than four candidates.
    reduced: u64,
    /// Contacts on a face of A, and of B, whose places are not 0, 1, 2, .. in this order.
    out_of_order: [u64; 2],
    edge_points: u64,
    /// Contacts with two points at one position.
    points_at_one_position: u64,
    /// Contacts of which two candidates carry one tag.
    one_tag: u64,
    /// Contacts with twins: two candidates of one tag at one position.
    twins: u64,
    /// Contacts with twins of which one became a point and the other did not. That both do was not met with a face; the run
    /// `cuts` meets it with lists of its own.
    one_of_twins: u64,
}

impl Placed {
    /// One call that was accepted and did some work, and its answer. Panics where a point is not its candidate.
    pub fn add(&mut self, call: &Call, wanted: &Answer) {
        let (points, next) = (wanted.outcome.points(), wanted.cache);
        if points.is_empty() {
            return;
        }
        if next.kind == 4 {
            self.edge_points += 1;
            return;
        }
        let candidates = Work::of_call(call).candidates(next);
        let on_face_b = next.kind == 3;
        for point in points {
            assert!(is_of(point, &candidates, on_face_b), "{point:?}: {call:?}");
        }
        self.reduced += u64::from(candidates.len() > 4);
        let in_order = points
            .iter()
            .map(|point| point.place)
            .eq(0..points.len() as u8);
        self.out_of_order[usize::from(on_face_b)] += u64::from(!in_order);
        let position = |point: &Point| [point.position.x, point.position.y, point.position.z];
        self.points_at_one_position += u64::from(any_two(points, |p, q| {
            position(p).map(f32::to_bits) == position(q).map(f32::to_bits)
        }));
        self.add_candidates(points, &candidates);
    }

    fn add_candidates(&mut self, points: &[Point], candidates: &[ClipVertex]) {
        let numbered: Vec<(usize, &ClipVertex)> = candidates.iter().enumerate().collect();
        let picked = |number: usize| points.iter().any(|p| usize::from(p.place) == number);
        let twins = |a: &ClipVertex, b: &ClipVertex| a.pair == b.pair && bits(a) == bits(b);
        self.one_tag += u64::from(any_two(&numbered, |(_, a), (_, b)| a.pair == b.pair));
        self.twins += u64::from(any_two(&numbered, |(_, a), (_, b)| twins(a, b)));
        self.one_of_twins += u64::from(any_two(&numbered, |&(i, a), &(j, b)| {
            twins(a, b) && picked(i) != picked(j)
        }));
    }

    /// Each was met at least so often.
    pub fn report(&self, least: u64) -> bool {
        println!("places");
        let [of_a, of_b] = self.out_of_order;
        met(&[
            ("more than four candidates", self.reduced, least),
            ("out of order on a face of A", of_a, least),
            ("on a face of B", of_b, least),
            ("edge points, place 0", self.edge_points, least),
            (
                "two points at one position",
                self.points_at_one_position,
                least,
            ),
        ]) & met(&[
            ("two candidates of one tag", self.one_tag, least),
            ("at one position too", self.twins, least),
            (
                "of these one is a point, told by its place",
                self.one_of_twins,
                least,
            ),
        ])
    }
}

/// Whether the point has the tag and the separation of the candidate at its place.
fn is_of(point: &Point, candidates: &[ClipVertex], on_face_b: bool) -> bool {
    candidates
        .get(usize::from(point.place))
        .is_some_and(|candidate| {
            let pair = match on_face_b {
                true => flip_pair(candidate.pair),
                false => candidate.pair,
            };
            crate::convert::our_pair(pair) == point.pair
                && crate::same(candidate.separation, point.separation)
        })
}

fn bits(candidate: &ClipVertex) -> [u32; 3] {
    let position = candidate.position;
    [position.x, position.y, position.z].map(f32::to_bits)
}

/// Whether any two of the list are so.
fn any_two<T>(list: &[T], so: impl Fn(&T, &T) -> bool) -> bool {
    (1..list.len()).any(|later| {
        list[..later]
            .iter()
            .any(|earlier| so(earlier, &list[later]))
    })
}
