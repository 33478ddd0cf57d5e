//! Faults about length units: a limit or a tolerance that does not go by the unit, and refusals in another order.

use super::{right, shells::call, Answers};
use crate::codec;
use cases::calls::{cache_in_range, empty, transform_accepted, Answer, Given, Work};
use cases::convert;
use oracle::core::with_length_units;
use oracle::math_functions::mul_sub;
use oracle::open::{reduce_manifold_points, AxisQuery, LocalManifoldPoint, SeparatingFeature};
use oracle::transcribed::End;
use records::{Contact, HullLists, HullSize, SatCache, Unit};
use validator::Limits;

/// The refusals before any work in their order.
const IN_ORDER: [u8; 5] = [1, 2, 17, 3, 4];

/// What a program makes of a call with a capacity of 4 or more; none where that is right.
type Faulty = fn(&Given) -> Option<Answer>;

/// The answer of such a program.
fn by(line: &[u8], faulty: Faulty) -> Option<Vec<u8>> {
    let right = right(line)?;
    let given = call(line, &right).filter(|given| given.capacity >= 4);
    let answer = given.and_then(|given| faulty(&given));
    Some(answer.map_or(right, |answer| codec::call_answer(&answer)))
}

/// How a program judges a call: by these limits, of a hull's own unit and of hull A's; a unit that is none is refused, or acts as
/// metres; the transform's limit; and the order of the refusals.
struct Judge {
    limits: fn(Unit, Unit) -> Limits,
    tests_units: bool,
    placed_in: fn(Unit) -> Unit,
    order: &'static [u8],
}

const RIGHT: Judge = Judge {
    limits: |own, _| limits(own),
    tests_units: true,
    placed_in: |unit| unit,
    order: &IN_ORDER,
};

fn limits(unit: Unit) -> Limits {
    Limits::of(unit.per_metre())
}

impl Judge {
    /// The answer of a program that judges like this, and whose work is right.
    fn answer(self, given: &Given) -> Option<Answer> {
        let call = given.call();
        let [a, b] = [call.a, call.b].map(|hull| hull.size.known_unit().unwrap_or_default());
        let bad = |hull: HullLists, own| {
            let unknown = self.tests_units && hull.size.known_unit().is_err();
            unknown || breaks_a_rule(hull, &(self.limits)(own, a))
        };
        let given_for = |refusal: u8| match refusal {
            1 => bad(call.a, a),
            2 => bad(call.b, b),
            17 => call.a.size.unit != call.b.size.unit,
            3 => !transform_accepted((self.placed_in)(a).per_metre(), call.transform),
            _ => !cache_in_range(call.a.size, call.b.size, call.cache),
        };
        let mut order = self.order.iter().copied();
        Some(match order.find(|&refusal| given_for(refusal)) {
            Some(refusal) => empty(refusal, call.cache),
            None => Work::of_call_in(&call, a).answer(call.capacity, call.cache),
        })
    }
}

fn breaks_a_rule(hull: HullLists, limits: &Limits) -> bool {
    let HullSize {
        vertices,
        half_edges,
        faces,
        ..
    } = hull.size;
    let (numbers, links) = (hull.numbers, hull.links);
    validator::first_broken_rule_within(limits, numbers, links, vertices, half_edges, faces) != 0
}

/// The work of a call that is not refused before it.
fn work(given: &Given) -> Option<Work> {
    let call = given.call();
    (call.refusal() == 0).then(|| Work::of_call(&call))
}

/// What a cached axis that still makes a contact comes to by a program with this slop: it serves again, or all are searched.
fn with_slop(given: &Given, slop: fn(Unit) -> f32) -> Option<Answer> {
    let work = work(given)?;
    let End::Touching(separation) = work.again(given.cache)?.end else {
        return None;
    };
    let difference = (given.cache.separation() - separation).abs();
    let serves = |slop: f32| difference < slop;
    let told = match (serves(work.unit.slop()), serves(slop(work.unit))) {
        (true, false) => SatCache {
            kind: 0,
            ..given.cache
        },
        (false, true) => SatCache {
            separation: separation.to_bits(),
            ..given.cache
        },
        _ => return None,
    };
    let mut answer = work.answer(given.capacity, told);
    if answer.cache.hit == 1 {
        answer.cache.separation = given.cache.separation;
    }
    Some(answer)
}

/// What a cached axis comes to by a program that has the speculative distance of metres there: a hit without points.
fn cached_beyond_metres(given: &Given) -> Option<Answer> {
    let work = work(given)?;
    let again = work.again(given.cache)?;
    let (separation, distance) = (again.separation?, Unit::Metres.speculative_distance());
    let beyond = match given.cache.kind {
        4 => separation > distance,
        _ => separation >= distance,
    };
    let hit = SatCache {
        hit: 1,
        ..given.cache
    };
    beyond.then(|| empty(0, hit))
}

/// The search's answer by a program that has the speculative distance of metres there: an axis apart.
fn searched_in_metres(given: &Given) -> Option<Answer> {
    let right = work(given)?.answer(given.capacity, given.cache);
    let query = Work::of_call_in(&given.call(), Unit::Metres).search();
    let axis = match query.separated_feature {
        SeparatingFeature::FaceAxisA => query.face_a,
        SeparatingFeature::FaceAxisB => query.face_b,
        SeparatingFeature::EdgePairAxis => query.edge,
        _ => return None,
    };
    let apart = SatCache {
        separation: axis.separation.to_bits(),
        kind: query.separated_feature as u8,
        index_a: axis.index_a as u8,
        index_b: axis.index_b as u8,
        hit: 0,
    };
    (right.cache.hit == 0).then(|| empty(0, apart))
}

/// A contact on a face by a program to which candidates touch that are nearer than the speculative distance of metres; where there
/// is no pair of edges in its place.
fn touching_in_metres(given: &Given) -> Option<Answer> {
    let work = work(given)?;
    let right = work.answer(given.capacity, given.cache);
    let on_face = right.outcome.contact.count > 0 && [2, 3].contains(&right.cache.kind);
    let apart = right.cache.separation() >= Unit::Metres.speculative_distance();
    let alone = work.search().edge.index_a < 0;
    let missed = right.cache.hit == 0 && on_face && apart && alone;
    missed.then(|| empty(0, SatCache::EMPTY))
}

/// The contact on a face of A by a program that picks points with the speculative distance of metres.
fn picked_in_metres(given: &Given) -> Option<Answer> {
    let work = work(given)?;
    let mut answer = work.answer(given.capacity, given.cache);
    let contact = &mut answer.outcome.contact;
    if answer.cache.kind != 2 || contact.count == 0 {
        return None;
    }
    let candidates = work.candidates(answer.cache);
    let normal = convert::vector(contact.normal);
    let images = candidates
        .iter()
        .zip(0..)
        .map(|(candidate, place)| LocalManifoldPoint {
            point: mul_sub(candidate.position, 0.5 * candidate.separation, normal),
            separation: candidate.separation,
            pair: candidate.pair,
            triangle_index: place,
        });
    let images: Vec<LocalManifoldPoint> = images.collect();
    let picked = with_length_units(Unit::Metres.scale(), || {
        reduce_manifold_points(normal, &images, images.len() as i32)
    });
    contact.points = Contact::EMPTY.points;
    contact.count = picked.len() as u8;
    for (point, picked) in contact.points.iter_mut().zip(&picked) {
        *point = convert::our_contact_point(picked);
    }
    Some(answer)
}

/// The separation that a full search leaves on a face, by a program whose support values start as in metres. The search to the end
/// has no other length in it.
fn started_in_metres(given: &Given) -> Option<Answer> {
    let work = work(given)?;
    let mut answer = work.answer(given.capacity, given.cache);
    let faulty = Work::of_call_in(&given.call(), Unit::Metres).search_to_end();
    let on_face = |query: &AxisQuery| match answer.cache.kind {
        2 => query.face_a.separation,
        _ => query.face_b.separation,
    };
    let differs = on_face(&work.search_to_end()) != on_face(&faulty);
    if answer.cache.hit == 1 || ![2, 3].contains(&answer.cache.kind) || !differs {
        return None;
    }
    answer.cache.separation = on_face(&faulty).to_bits();
    Some(answer)
}

pub const FAULTS: [(&str, Answers); 19] = [
    ("slop left at unit 1", |line| {
        by(line, |given| with_slop(given, |_| Unit::Metres.slop()))
    }),
    ("slop multiplied twice", |line| {
        by(line, |given| {
            with_slop(given, |unit| unit.slop() * unit.scale())
        })
    }),
    ("slop at unit 10 the float nearest 0.05", |line| {
        by(line, |given| {
            with_slop(given, |unit| match unit {
                Unit::Decimetres => 0.05,
                _ => unit.slop(),
            })
        })
    }),
    (
        "speculative distance of a cached axis left at unit 1",
        |line| by(line, cached_beyond_metres),
    ),
    (
        "speculative distance of the search left at unit 1",
        |line| by(line, searched_in_metres),
    ),
    ("speculative distance of touching left at unit 1", |line| {
        by(line, touching_in_metres)
    }),
    ("speculative distance of the picks left at unit 1", |line| {
        by(line, picked_in_metres)
    }),
    ("slop and speculative distance left at unit 1", |line| {
        by(line, |given| {
            work(given)?;
            let work = Work::of_call_in(&given.call(), Unit::Metres);
            Some(work.answer(given.capacity, given.cache))
        })
    }),
    ("starting support value left at unit 1", |line| {
        by(line, started_in_metres)
    }),
    ("4096 left at unit 1 for coordinates", |line| {
        by(line, |given| {
            let limits = |own, _| Limits {
                farthest: Unit::Metres.farthest(),
                ..limits(own)
            };
            Judge { limits, ..RIGHT }.answer(given)
        })
    }),
    ("8192 left at unit 1", |line| {
        by(line, |given| {
            let limits = |own, _| Limits {
                farthest_offset: Unit::Metres.farthest_offset(),
                ..limits(own)
            };
            Judge { limits, ..RIGHT }.answer(given)
        })
    }),
    ("1/1024 left at unit 1", |line| {
        by(line, |given| {
            let limits = |own, _| Limits {
                shortest: Unit::Metres.shortest_edge(),
                ..limits(own)
            };
            Judge { limits, ..RIGHT }.answer(given)
        })
    }),
    ("4096 left at unit 1 for the transform", |line| {
        by(line, |given| {
            let placed_in = |_| Unit::Metres;
            Judge { placed_in, ..RIGHT }.answer(given)
        })
    }),
    ("A's unit used for B's rules", |line| {
        by(line, |given| {
            let limits = |_, of_a| limits(of_a);
            Judge { limits, ..RIGHT }.answer(given)
        })
    }),
    ("the unit not in H1", |line| {
        by(line, |given| {
            let tests_units = false;
            Judge {
                tests_units,
                ..RIGHT
            }
            .answer(given)
        })
    }),
    ("17 after 3", |line| {
        by(line, |given| {
            let order = &[1, 2, 3, 17, 4];
            Judge { order, ..RIGHT }.answer(given)
        })
    }),
    ("17 before 2", |line| {
        by(line, |given| {
            let order = &[1, 17, 2, 3, 4];
            Judge { order, ..RIGHT }.answer(given)
        })
    }),
    ("17 not given", |line| {
        by(line, |given| {
            let order = &[1, 2, 3, 4];
            Judge { order, ..RIGHT }.answer(given)
        })
    }),
    ("17 with a capacity below 4", |line| {
        let right = right(line)?;
        match call(line, &right) {
            Some(given) if given.capacity < 4 && given.a.size.unit != given.b.size.unit => {
                Some(codec::call_answer(&empty(17, given.cache)))
            }
            _ => Some(right),
        }
    }),
];
