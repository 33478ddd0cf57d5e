//! The picks beside the text's `reduce_manifold_points`, which is handed the images and carries the place of each.

use crate::hold::contact_is;
use crate::lists;
use cases::{convert, met, one_in, Numbers, Tally};
use oracle::core::with_length_units;
use oracle::open;
use probes::{ClipVertex, Point, Unit};
use runs::corners;

/// Reductions of more than four candidates with twins among them, by what came of two twins.
#[derive(Default)]
struct Twins {
    one_picked: u64,
    both_picked: u64,
}

impl Twins {
    fn add(&mut self, list: &[ClipVertex], points: &[Point]) {
        let picked = |place: usize| points.iter().any(|point| usize::from(point.place) == place);
        let any = |so: &dyn Fn(usize, usize) -> bool| {
            let mut pairs = (1..list.len()).flat_map(|j| (0..j).map(move |i| (i, j)));
            pairs.any(|(i, j)| corners::twins(&list[i], &list[j]) && so(i, j))
        };
        self.one_picked += u64::from(any(&|i, j| picked(i) != picked(j)));
        self.both_picked += u64::from(any(&|i, j| picked(i) && picked(j)));
    }
}

pub fn run(n: &mut Numbers, count: usize) -> bool {
    let mut t = Tally::default();
    let mut made = [0; 5];
    let mut of_units = [[0; 5]; 4];
    let mut out_of_order = 0;
    let mut twins = Twins::default();
    for turn in 0..4 * count {
        let unit = Unit::ALL[turn % 4];
        let (normal, list) = lists::any(unit, n);
        let images = runs::images(&list, normal);
        let points = corners::points(&images);
        let size = list.len() as i32;
        let theirs = with_length_units(unit.scale(), || {
            open::reduce_manifold_points(convert::vector(normal), &points, size)
        });
        let theirs: Vec<Point> = theirs.iter().map(convert::our_contact_point).collect();
        let (places, kept) = lists::lent(&list, n);
        let ours = places.reduce_manifold_points(unit.per_metre(), kept, normal);
        t.compare(contact_is(&ours, normal, &theirs), || {
            format!("points of {list:?} with normal {normal:?}: {ours:?}, {theirs:?}")
        });
        if list.len() > 4 {
            made[theirs.len()] += 1;
            of_units[turn % 4][theirs.len()] += 1;
            let in_order = theirs
                .iter()
                .map(|point| point.place)
                .eq(0..theirs.len() as u8);
            out_of_order += u64::from(!in_order);
            twins.add(&images, &theirs);
        }
    }
    let [none, one, two, three, four] = made;
    let (least, few) = (one_in(100, count), one_in(1000, count));
    let of_units = Unit::ALL.into_iter().zip(of_units);
    let in_units = of_units.fold(true, |good, (unit, made)| {
        let [none, one, two, three, four] = made;
        good & met(&[
            (&format!("in {unit}: none"), none, few),
            ("one", one, few),
            ("two", two, few),
            ("three", three, few),
            ("four", four, few),
        ])
    });
    in_units
        & t.report("picks and places")
        & met(&[
            ("of more than four candidates none", none, least),
            ("one", one, least),
            ("two", two, least),
            ("three", three, least),
            ("four", four, least),
            ("places not in order", out_of_order, least),
        ])
        & met(&[
            (
                "two of one tag at one position, one picked",
                twins.one_picked,
                least,
            ),
            ("both picked", twins.both_picked, few),
        ])
}
