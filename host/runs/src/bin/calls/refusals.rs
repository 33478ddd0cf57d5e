//! Refusals before any work, one rule broken or several, and capacities below 4, with which nothing is looked at; each with
//! any cache and with each retired type, in every unit and with unlike units.

use crate::retired::Retired;
use cases::calls::broken::{hull, transform, Broken};
use cases::calls::{caches, empty, same_answers, Call, Given};
use cases::{met, one_in, Numbers, Tally};
use records::{HullLists, HullSize, SatCache, Unit};
use runs::ours;

/// The refusals in the order in which they are given: hull A, hull B, their units, the transform, the cache.
const IN_ORDER: [u8; 5] = [1, 2, 17, 3, 4];

pub fn run(n: &mut Numbers, count: usize, retired: &mut Retired) -> bool {
    let (mut refused, mut small) = (Tally::default(), Tally::default());
    let (mut alone, mut first) = ([0; 5], [0; 5]);
    for _ in 0..count {
        for set in 1..32 {
            let wrong = [0, 1, 2, 3, 4].map(|bit| set >> bit & 1 == 1);
            let [a, b, unlike, transform, cache] = wrong;
            let place = wrong.iter().take_while(|&&wrong| !wrong).count();
            let given = Given::any([a, b, transform, cache], units(unlike, n), n);
            one(&mut refused, retired, &given, place);
            let several = wrong[place + 1..].contains(&true);
            [&mut alone, &mut first][usize::from(several)][place] += 1;
        }
        for _ in 0..2 {
            capacity(&mut small, retired, caches::any(n), n);
        }
        for kind in SatCache::RETIRED_TYPES {
            // Hull A, hull B, their units or the transform: a cache of such a type breaks no rule.
            for place in 0..4 {
                let [a, b, unlike, transform] = [0, 1, 2, 3].map(|own| own == place);
                let broken: Broken = [a, b, transform, false];
                let mut given = Given::any(broken, units(unlike, n), n);
                given.cache.kind = kind;
                one(&mut refused, retired, &given, place);
            }
            let cache = caches::any(n);
            capacity(&mut small, retired, SatCache { kind, ..cache }, n);
        }
    }
    let [a, b, unlike, transform, cache] = alone;
    let [first_a, first_b, first_unlike, first_transform, _] = first;
    let least = one_in(1, count);
    refused.report("refusals before any work")
        & met(&[
            ("hull A alone broken", a, least),
            ("hull B", b, least),
            ("the units", unlike, least),
            ("the transform", transform, least),
            ("the cache", cache, least),
            ("hull A and others", first_a, least),
            ("hull B and others after it", first_b, least),
            ("the units and others after them", first_unlike, least),
            ("the transform and the cache", first_transform, least),
        ])
        & small.report("capacities below 4")
}

/// The units of hull A and hull B: any one, or two that are unlike.
fn units(unlike: bool, n: &mut Numbers) -> [Unit; 2] {
    let own = n.unit();
    if !unlike {
        return [own; 2];
    }
    loop {
        let other = n.unit();
        if other != own {
            return [own, other];
        }
    }
}

/// One call of which the part at this place is the first that is broken, which is refused by its number.
fn one(t: &mut Tally, m: &mut Retired, given: &Given, place: usize) {
    let (call, number) = (given.call(), IN_ORDER[place]);
    let (ours, wanted) = (ours(&call), empty(number, call.cache));
    let right = call.refusal() == number && same_answers(&ours, &wanted);
    t.compare(right, || format!("refusal {number}: {ours:?}: {call:?}"));
    m.add(&call, &wanted);
}

/// One call with a capacity below 4 and anything else: hulls that are good or broken, or lists that are not there under
/// sizes that no hull has.
fn capacity(t: &mut Tally, m: &mut Retired, cache: SatCache, n: &mut Numbers) {
    let shapes = [0; 2].map(|_| {
        let unit = n.unit();
        hull(n.below(2) == 0, unit, n)
    });
    let sizes = [0, 3, 4, 128, 1 << 40, 1 << 63, usize::MAX];
    let [a, b] = shapes.each_ref().map(|shape| {
        let mut any_size = || sizes[n.below(sizes.len())];
        let size = HullSize {
            unit: any_size(),
            vertices: any_size(),
            half_edges: any_size(),
            faces: any_size(),
        };
        let nothing = HullLists {
            numbers: &[],
            links: &[],
            size,
        };
        [shape.lent(), nothing][n.below(2)]
    });
    let below = [i32::MIN, i32::MIN + 1, -5, -4, -1, 0, 1, 2, 3];
    let call = Call {
        capacity: below[n.below(below.len())],
        a,
        b,
        transform: transform(n.below(2) == 0, Unit::Metres, n),
        cache,
    };
    let (ours, wanted) = (ours(&call), empty(0, call.cache));
    t.compare(same_answers(&ours, &wanted), || {
        format!("capacity below 4: {ours:?}: {call:?}")
    });
    m.add(&call, &wanted);
}
