//! Caches that lead the call a certain way, and where B lies then.

use super::caches::{any, naming, NAMING};
use super::Work;
use crate::inputs::rounded;
use crate::shapes::solids::frame;
use crate::{convert, Numbers};
use oracle::math_functions::mul_add;
use oracle::transcribed::End;
use records::{HullSize, SatCache, Unit};

/// Any type that acts as type 0 and is not retired.
pub fn of_full_search(n: &mut Numbers) -> SatCache {
    let kind = [0, 0, 1, 5, 9 + n.below(247) as u8][n.below(5)];
    SatCache { kind, ..any(n) }
}

/// A face or a pair of edges, the one that a search finds or any, of any edges often two that cross; with a separation
/// about the one that comes of it.
pub fn aimed(work: &Work, a: HullSize, b: HullSize, n: &mut Numbers) -> SatCache {
    let kind = NAMING[n.below(3)];
    let mut cache = naming(kind, a, b, n);
    match n.below(4) {
        0 | 1 => {
            let query = work.search_to_end();
            let axis = [query.face_a, query.face_b, query.edge][usize::from(kind) - 2];
            if axis.index_a >= 0 {
                (cache.index_a, cache.index_b) = (axis.index_a as u8, axis.index_b as u8);
            }
        }
        2 => {
            let crosses = |&cache: &SatCache| {
                let again = work.again(cache);
                again.is_some_and(|again| !matches!(again.end, End::Signs(_)))
            };
            let mut tries = (0..40).map(|_| naming(kind, a, b, n));
            cache = tries.find(crosses).unwrap_or(cache);
        }
        _ => {}
    }
    if let Some(End::Touching(separation)) = work.again(cache).map(|again| again.end) {
        cache.separation = near(separation, work.unit, n);
    }
    cache
}

/// At this separation, near it, at the unit's slop from it, a float beside that, or any bits.
pub fn near(there: f32, unit: Unit, n: &mut Numbers) -> u32 {
    let slop = unit.slop();
    let at_slop = there + [slop, -slop][n.below(2)];
    let near = match n.below(8) {
        0 | 1 => there,
        2 => there + slop * n.fraction(),
        3 => there + 4.0 * slop * n.fraction(),
        4 => at_slop,
        5 => at_slop.next_up(),
        6 => at_slop.next_down(),
        _ => return any(n).separation,
    };
    near.to_bits()
}

/// Moves B along some way until the cached axis has the speculative distance but for rounding, by steps that would lead
/// there if the separation went evenly; no farther than the tests of a pair of edges pass.
pub fn move_to_speculative(work: &mut Work, cache: SatCache, n: &mut Numbers) {
    let start = work.transform.p;
    let way = convert::vector(rounded(frame(n)[0]));
    let (mut by, mut before) = (0.0, None);
    for _ in 0..8 {
        let there = std::mem::replace(&mut work.transform.p, mul_add(start, by, way));
        let Some(separation) = work.again(cache).and_then(|again| again.separation) else {
            work.transform.p = there;
            return;
        };
        let off = separation - work.unit.speculative_distance();
        let next = match before {
            None => by + off,
            Some((_, off_before)) if off == off_before => return,
            Some((by_before, off_before)) => by - off * (by - by_before) / (off - off_before),
        };
        before = Some((by, off));
        by = next;
    }
}
