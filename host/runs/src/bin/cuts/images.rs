//! The candidates' images and their least separation beside the loop of hulls.rs over the readings; and whether candidates
//! touch.

use super::hold::corners_are;
use super::lists;
use cases::shapes::breaks::UNKNOWN_UNITS;
use cases::sorts::about;
use cases::{same, Numbers, Tally};
use oracle::math_functions::min_float;
use probes::{ClipVertex, Unit};

pub fn images(n: &mut Numbers, count: usize) -> Tally {
    let mut t = Tally::default();
    for _ in 0..count {
        let (normal, list) = lists::any(n.unit(), n);
        let points = runs::images(&list, normal);
        let (places, kept) = lists::lent(&list, n);
        let all = kept.from..kept.from + kept.count;
        let ours: Vec<ClipVertex> = all.map(|p| places.image_at(p, normal)).collect();
        t.compare(corners_are(&ours, &points), || {
            format!("images of {list:?} by {normal:?}: {ours:?}")
        });
        let separations = list.iter().map(|v| v.separation);
        let min_separation = separations.fold(f32::MAX, min_float);
        let least = places.least_separation(kept);
        t.compare(same(least, min_separation), || {
            format!("least separation of {list:?}: {least}, {min_separation}")
        });
    }
    t
}

/// "Fewer than 3 left, or least separation at or above speculative: not touching." In each unit; a number that is none acts as 1.
pub fn touching(n: &mut Numbers) -> Tally {
    let mut t = Tally::default();
    for unit in Unit::ALL {
        touching_in(&mut t, unit.per_metre(), unit, n);
    }
    for unknown in UNKNOWN_UNITS {
        touching_in(&mut t, unknown, Unit::Metres, n);
    }
    t
}

fn touching_in(t: &mut Tally, number: usize, unit: Unit, n: &mut Numbers) {
    let distance = unit.speculative_distance();
    let ends = Unit::ALL.map(|unit| about(unit.speculative_distance()));
    let any: Vec<f32> = (0..100).map(|_| n.float()).collect();
    for count in (0..=65).chain([usize::MAX]) {
        for &least in ends
            .as_flattened()
            .iter()
            .chain(&cases::SPECIAL)
            .chain(&any)
        {
            let ours = probes::touching(number, count, least);
            let apart = count < 3 || least >= distance;
            t.compare(ours != apart, || {
                format!("touching of {count}, {least} in unit {number}")
            });
        }
    }
}
