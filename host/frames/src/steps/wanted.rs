//! What a step does, written a second time from its description alone: every hull's first broken rule by the second validator,
//! every pair as a call with room for four points.

use super::Lists;
use cases::calls::{empty, Answer, Call};
use cases::shapes::broken_rule;
use records::{
    HullLists, HullRecord, Quat, SatCache, Step, Transform, Vec3, CACHE_WORDS, PAIR_BYTES,
    PAIR_FLOATS, TRANSFORM_FLOATS,
};

/// What stands in the lists after the step, and what it returns.
pub struct Written {
    pub step: Step,
    pub judged: Vec<u8>,
    pub caches: Vec<u32>,
    pub floats: Vec<f32>,
    pub bytes: Vec<u8>,
    /// Of each pair whether its answer can be told, which without the Rust text those that do any work cannot. The points are the
    /// sum of those that can.
    pub told: Vec<bool>,
}

pub fn of(given: &Lists) -> Written {
    let (hulls, pairs) = given.counts();
    let mut written = Written {
        step: Step {
            status: 0,
            points: 0,
        },
        judged: given.judged.clone(),
        caches: given.caches.clone(),
        floats: given.floats.clone(),
        bytes: given.bytes.clone(),
        told: vec![true; pairs],
    };
    if no_room(given) {
        written.step.status = 21;
        return written;
    }
    for number in 0..hulls {
        written.judged[number] = hull(given, number).map_or(1, broken_rule);
    }
    for pair in 0..pairs {
        let Some(answer) = answer(given, &written.judged[..hulls], pair) else {
            written.told[pair] = false;
            continue;
        };
        let (floats, bytes) = answer.outcome.in_step();
        written.floats[PAIR_FLOATS * pair..][..PAIR_FLOATS].copy_from_slice(&floats);
        written.bytes[PAIR_BYTES * pair..][..PAIR_BYTES].copy_from_slice(&bytes);
        written.caches[CACHE_WORDS * pair..][..CACHE_WORDS].copy_from_slice(&answer.cache.words());
        written.step.points += usize::from(answer.outcome.contact.count);
    }
    written
}

/// "21 where a list has no room for the hulls and pairs": one place of judged a hull; a pair's places of the other four.
pub fn no_room(given: &Lists) -> bool {
    let (hulls, pairs) = given.counts();
    given.judged.len() < hulls
        || given.transforms.len() < TRANSFORM_FLOATS * pairs
        || given.caches.len() < CACHE_WORDS * pairs
        || given.floats.len() < PAIR_FLOATS * pairs
        || given.bytes.len() < PAIR_BYTES * pairs
}

/// The hull of this number, which is there; none where its lists do not lie inside the two that are lent.
pub fn hull(given: &Lists, number: usize) -> Option<HullLists<'_>> {
    let record = record(given, number);
    let size = record.size();
    let numbers = given.numbers.get(record.numbers as usize..)?;
    let links = given.links.get(record.links as usize..)?;
    Some(HullLists {
        numbers: numbers.get(..size.numbers()?)?,
        links: links.get(..size.links()?)?,
        size,
    })
}

pub fn record(given: &Lists, number: usize) -> HullRecord {
    HullRecord::of_words(given.hulls.as_chunks().0[number])
}

/// The transform of a pair: position, the quaternion's vector, its scalar last.
pub fn transform(given: &Lists, pair: usize) -> Transform {
    let [px, py, pz, x, y, z, s] = given.transforms.as_chunks().0[pair];
    Transform {
        p: Vec3 {
            x: px,
            y: py,
            z: pz,
        },
        q: Quat {
            v: Vec3 { x, y, z },
            s,
        },
    }
}

pub fn cache(given: &Lists, pair: usize) -> SatCache {
    cache_of(&given.caches, pair)
}

pub fn cache_of(caches: &[u32], pair: usize) -> SatCache {
    SatCache::of_words(caches.as_chunks().0[pair])
}

/// A hull that is good; none where its number is none and where it breaks a rule.
fn good<'a>(given: &'a Lists, judged: &[u8], number: u32) -> Option<HullLists<'a>> {
    match judged.get(number as usize) {
        Some(0) => hull(given, number as usize),
        _ => None,
    }
}

fn answer(given: &Lists, judged: &[u8], pair: usize) -> Option<Answer> {
    let cache = cache(given, pair);
    let [a, b] = given.pairs.as_chunks().0[pair];
    let Some(a) = good(given, judged, a) else {
        return Some(empty(1, cache));
    };
    let Some(b) = good(given, judged, b) else {
        return Some(empty(2, cache));
    };
    to_call(&Call {
        capacity: 4,
        a,
        b,
        transform: transform(given, pair),
        cache,
    })
}

#[cfg(rust_text)]
fn to_call(call: &Call) -> Option<Answer> {
    Some(call.wanted())
}

#[cfg(not(rust_text))]
fn to_call(call: &Call) -> Option<Answer> {
    call.without_work()
}
