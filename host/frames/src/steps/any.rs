//! Lists of a step at random: hulls of every sort, good and broken, some of them twice, shifted or outside of the lists, in any
//! order; pairs that touch, pairs of any two hulls, numbers that are no hull's; every list as long as it must be or longer.

use super::{wanted, Lists};
use cases::calls::{broken, caches};
use cases::pairs::{any, moved, Pair};
use cases::shapes::breaks::{break_rule, RULES, UNKNOWN_UNITS};
use cases::shapes::kinds::COMPACT;
use cases::shapes::Shape;
use cases::sorts::{acceptable, settled, SORTS};
use cases::{convert, Numbers};
use records::{
    HullRecord, SatCache, Transform, Unit, CACHE_WORDS, HULL_WORDS, PAIR_BYTES, PAIR_FLOATS,
    TRANSFORM_FLOATS,
};

/// How far B is moved from step to step, in metres and in radians.
const STEPS: [f32; 6] = [0.0, 1e-6, 1e-4, 3e-4, 4e-3, 0.1];

/// One of so many lists has no hulls, no pairs, or neither.
const EMPTY: usize = 40;

/// A hull that is to be lent, with what its record says.
struct Placed {
    shape: Shape,
    record: HullRecord,
}

/// Lists for a step, with room for it, and the unit of most of its hulls.
pub fn lists(n: &mut Numbers) -> (Lists, Unit) {
    let unit = n.unit();
    let mut lists = Lists::default();
    let laid: Vec<Pair> = (0..1 + n.below(4)).map(|_| laid(unit, n)).collect();
    let mut placed: Vec<Placed> = Vec::new();
    for pair in &laid {
        for shape in [&pair.a, &pair.b] {
            let record = place(&mut lists, shape, n);
            let shape = shape.clone();
            placed.push(Placed { shape, record });
        }
    }
    for _ in 0..n.below(4) {
        let good = &placed[n.below(2 * laid.len())];
        let shape = other(&good.shape, unit, n);
        let record = place(&mut lists, &shape, n);
        placed.push(Placed { shape, record });
    }
    // What stands behind the last hull, where anything does.
    if n.below(2) == 0 {
        fill(&mut lists, n.below(20), n);
    }
    for _ in 0..n.below(4) {
        let from = &placed[n.below(placed.len())];
        let record = odd(from.record, &lists, n);
        let shape = from.shape.clone();
        placed.push(Placed { shape, record });
    }
    if n.below(EMPTY) == 0 {
        placed.clear();
    }
    let order = n.order(placed.len());
    let mut numbers = vec![0; placed.len()];
    for (number, &from) in order.iter().enumerate() {
        numbers[from] = number as u32;
        lists.hulls.extend(placed[from].record.words());
    }
    if n.below(EMPTY) > 0 {
        pairs(&mut lists, &laid, &placed, &numbers, unit, n);
    }
    let part = [0, n.below(HULL_WORDS)][n.below(2)];
    lists.hulls.extend((0..part).map(|_| n.word() as u32));
    rooms(&mut lists, n);
    (lists, unit)
}

/// Two hulls about each other's surfaces, in this unit.
fn laid(unit: Unit, n: &mut Numbers) -> Pair {
    match n.below(4) {
        0 | 1 => settled(n).in_unit(unit),
        2 => acceptable(SORTS[n.below(SORTS.len())].1, unit, n),
        _ => acceptable(|unit, n: &mut _| any(n).in_unit(unit), unit, n),
    }
}

/// Broken by any rule but H1, or in any unit.
fn other(shape: &Shape, unit: Unit, n: &mut Numbers) -> Shape {
    if n.below(3) == 0 {
        let solid = COMPACT[n.below(COMPACT.len())].1(n);
        let unlike = Unit::ALL.into_iter().filter(|&other| other != unit);
        let unlike: Vec<Unit> = unlike.collect();
        return Shape::any(&solid, n).in_unit(unlike[n.below(3)]);
    }
    let mut shape = shape.clone();
    break_rule(2 + n.below(usize::from(RULES) - 1) as u8, &mut shape, n);
    shape
}

/// Puts the hull's lists behind the others, perhaps with something between.
fn place(lists: &mut Lists, shape: &Shape, n: &mut Numbers) -> HullRecord {
    if n.below(2) == 0 {
        fill(lists, n.below(8), n);
    }
    let size = shape.size;
    let record = HullRecord {
        numbers: lists.numbers.len() as u32,
        links: lists.links.len() as u32,
        unit: size.unit as u32,
        vertices: size.vertices as u32,
        half_edges: size.half_edges as u32,
        faces: size.faces as u32,
    };
    lists.numbers.extend(&shape.numbers);
    lists.links.extend(&shape.links);
    record
}

/// So many places of anything.
fn fill(lists: &mut Lists, count: usize, n: &mut Numbers) {
    lists.numbers.extend((0..count).map(|_| n.float()));
    lists.links.extend((0..count).map(|_| n.word() as u8));
}

/// The same hull once more, shifted, outside of the lists, with another unit or another size.
fn odd(mut record: HullRecord, lists: &Lists, n: &mut Numbers) -> HullRecord {
    let size = record.size();
    let end =
        |all: usize, count: Option<usize>| (all - count.expect("a hull that is there")) as u32;
    let by = 1 + n.below(4) as u32;
    match n.below(10) {
        0..=2 => {}
        3 => record.numbers += by,
        4 => record.links = record.links.saturating_sub(by),
        // one place too far, or just not
        5 => record.numbers = end(lists.numbers.len(), size.numbers()) + n.below(2) as u32,
        6 => record.links = end(lists.links.len(), size.links()) + n.below(2) as u32,
        7 => record.unit = UNKNOWN_UNITS[n.below(UNKNOWN_UNITS.len())] as u32,
        _ => {
            let word = match n.below(4) {
                0 => u32::MAX,
                1 => n.word() as u32,
                2 => n.below(300) as u32,
                _ => 0,
            };
            let mut words = record.words();
            words[n.below(HULL_WORDS)] = word;
            record = HullRecord::of_words(words);
        }
    }
    record
}

/// Those that touch, some of them more than once; any two hulls; numbers that are no hull's.
fn pairs(
    lists: &mut Lists,
    laid: &[Pair],
    placed: &[Placed],
    numbers: &[u32],
    unit: Unit,
    n: &mut Numbers,
) {
    let hulls = numbers.len() as u32;
    for (place, pair) in laid.iter().enumerate() {
        if numbers.is_empty() {
            break;
        }
        let named = [numbers[2 * place], numbers[2 * place + 1]];
        for _ in 0..1 + n.below(3) {
            let transform = convert::our_transform(pair.transform);
            let cache = cache(&pair.a, &pair.b, n);
            push(lists, named, transform, cache);
        }
    }
    for _ in 0..n.below(8) {
        let number = |n: &mut Numbers| match n.below(12) {
            0 => hulls + n.below(3) as u32,
            1 => [u32::MAX, n.word() as u32][n.below(2)],
            _ if numbers.is_empty() => 0,
            _ => n.below(numbers.len()) as u32,
        };
        let named = [number(n), number(n)];
        let transform = match n.below(8) {
            0 => broken::transform(true, unit, n),
            1..=3 => broken::transform(false, unit, n),
            _ => convert::our_transform(laid[n.below(laid.len())].transform),
        };
        let cache = match numbers.is_empty() {
            true => caches::any(n),
            false => {
                let any = |n: &mut Numbers| &placed[n.below(placed.len())].shape;
                cache(any(n), any(n), n)
            }
        };
        push(lists, named, transform, cache);
    }
    if n.below(3) == 0 {
        lists.pairs.push(n.below(4) as u32);
    }
}

fn push(lists: &mut Lists, named: [u32; 2], transform: Transform, cache: SatCache) {
    let Transform { p, q } = transform;
    lists.pairs.extend(named);
    let floats = [p.x, p.y, p.z, q.v.x, q.v.y, q.v.z, q.s];
    lists.transforms.extend(floats);
    lists.caches.extend(cache.words());
}

fn cache(a: &Shape, b: &Shape, n: &mut Numbers) -> SatCache {
    match n.below(8) {
        0 => caches::any(n),
        1 => caches::out_of_range(a.size, b.size, n),
        2 | 3 => caches::in_range(a.size, b.size, n),
        4 => SatCache {
            kind: SatCache::RETIRED_TYPES[n.below(3)],
            ..caches::any(n)
        },
        _ => SatCache::EMPTY,
    }
}

/// Room for what is written, with anything in it, and perhaps more than is needed of every list that goes with the pairs.
fn rooms(lists: &mut Lists, n: &mut Numbers) {
    let (hulls, pairs) = lists.counts();
    let more = |n: &mut Numbers| [0, 0, 1, n.below(60)][n.below(4)];
    let behind = more(n);
    lists.transforms.extend((0..behind).map(|_| n.float()));
    let behind = more(n);
    lists.caches.extend((0..behind).map(|_| n.word() as u32));
    // Rules that a step must not believe, 0 among them.
    let (judged, believed) = (hulls + more(n), n.below(3));
    lists.judged.extend((0..judged).map(|_| match believed {
        0 => 0,
        1 => n.below(10) as u8,
        _ => n.word() as u8,
    }));
    let (floats, bytes) = (PAIR_FLOATS * pairs + more(n), PAIR_BYTES * pairs + more(n));
    lists
        .floats
        .extend((0..floats).map(|_| f32::from_bits(n.word() as u32 & 0xff7f_ffff)));
    lists.bytes.extend((0..bytes).map(|_| n.word() as u8));
}

/// The same, or with one list too short, where something must be in it.
pub fn perhaps_short(lists: &Lists, n: &mut Numbers) -> Lists {
    let mut given = lists.clone();
    if n.below(8) > 0 {
        return given;
    }
    let (hulls, pairs) = lists.counts();
    let mut short = |needed: usize| match needed {
        0 => 0,
        _ => [needed - 1, n.below(needed)][n.below(2)],
    };
    let lengths = [
        short(hulls),
        short(TRANSFORM_FLOATS * pairs),
        short(CACHE_WORDS * pairs),
        short(PAIR_FLOATS * pairs),
        short(PAIR_BYTES * pairs),
    ];
    match n.below(5) {
        0 => given.judged.truncate(lengths[0]),
        1 => given.transforms.truncate(lengths[1]),
        2 => given.caches.truncate(lengths[2]),
        3 => given.floats.truncate(lengths[3]),
        _ => given.bytes.truncate(lengths[4]),
    }
    given
}

/// The next step: B of each pair a little moved, the caches as they are.
pub fn move_on(lists: &mut Lists, unit: Unit, n: &mut Numbers) {
    let by = STEPS[n.below(STEPS.len())];
    let (_, pairs) = lists.counts();
    for pair in 0..pairs {
        let there = convert::transform(wanted::transform(lists, pair));
        let Transform { p, q } = convert::our_transform(moved(there, by, unit, n));
        let floats = [p.x, p.y, p.z, q.v.x, q.v.y, q.v.z, q.s];
        lists.transforms[TRANSFORM_FLOATS * pair..][..TRANSFORM_FLOATS].copy_from_slice(&floats);
    }
}

/// Lists that fit nothing: those of a step with one to four changes, lengths too, or anything in all of them.
pub fn wild(n: &mut Numbers) -> Lists {
    if n.below(4) > 0 {
        let (mut lists, _) = lists(n);
        for _ in 0..1 + n.below(4) {
            change(&mut lists, n);
        }
        return lists;
    }
    let most = [4, 40, 400][n.below(3)];
    let word = |n: &mut Numbers| match n.below(4) {
        0 => n.word() as u32,
        1 => n.below(300) as u32,
        _ => n.below(9) as u32,
    };
    Lists {
        numbers: many(most, Numbers::float, n),
        links: many(most, byte, n),
        hulls: many(most, word, n),
        pairs: many(most, word, n),
        transforms: many(8 * most, Numbers::float, n),
        judged: many(most, byte, n),
        caches: many(4 * most, word, n),
        floats: many(20 * most, Numbers::float, n),
        bytes: many(20 * most, byte, n),
    }
}

pub(crate) fn byte(n: &mut Numbers) -> u8 {
    n.word() as u8
}

/// Fewer than so many of anything.
pub(crate) fn many<T>(most: usize, one: impl Fn(&mut Numbers) -> T, n: &mut Numbers) -> Vec<T> {
    (0..n.below(most)).map(|_| one(n)).collect()
}

/// One place of one list, or the length of one list.
fn change(lists: &mut Lists, n: &mut Numbers) {
    let word = [n.word() as u32, n.below(400) as u32, n.below(9) as u32][n.below(3)];
    let (float, byte) = (n.float(), n.word() as u8);
    let other_length = n.below(4) == 0;
    match n.below(9) {
        0 => change_list(&mut lists.numbers, float, other_length, n),
        1 => change_list(&mut lists.links, byte, other_length, n),
        2 => change_list(&mut lists.hulls, word, other_length, n),
        3 => change_list(&mut lists.pairs, word, other_length, n),
        4 => change_list(&mut lists.transforms, float, other_length, n),
        5 => change_list(&mut lists.judged, byte, other_length, n),
        6 => change_list(&mut lists.caches, word, other_length, n),
        7 => change_list(&mut lists.floats, float, other_length, n),
        _ => change_list(&mut lists.bytes, byte, other_length, n),
    }
}

/// One place, or the length.
pub(crate) fn change_list<T: Copy>(list: &mut Vec<T>, to: T, other_length: bool, n: &mut Numbers) {
    let place = n.below(list.len() + 1);
    match list.get_mut(place) {
        _ if other_length && n.below(2) == 0 => list.truncate(place),
        _ if other_length => list.extend(vec![to; 1 + n.below(30)]),
        Some(at) => *at = to,
        None => list.push(to),
    }
}
