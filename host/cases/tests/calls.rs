//! The refusals that stand for the text's panics are those that the panics' own words tell; a retired type acts as type 0, but
//! for the mark; and the second writing of the question whether two hulls are apart.
#![cfg(rust_text)]

use cases::calls::{caches, empty, same_answers, Answer, Call, Question, Work};
use cases::pairs::{self, placed, Pair};
use cases::sorts::{acceptable, padded, SORTS};
use cases::{convert, Numbers};
use oracle::open::{collide_hulls, LocalManifold, SeparatingFeature};
use oracle::quiet;
use records::SatCache;
use std::panic::catch_unwind;

/// Any two, or two whose padding lies anywhere.
fn pair(turn: usize, n: &mut Numbers) -> Pair {
    if turn.is_multiple_of(2) {
        return pairs::any(n);
    }
    let (a, b) = (padded(n), padded(n));
    placed(a, b, n)
}

/// 7 for an index of -1, 6 for a 65th place of a buffer, 5 for any other; 0 where the text does not panic.
fn told(work: &Work, cache: SatCache) -> u8 {
    let call = || {
        let (mut manifold, mut next) = (LocalManifold::default(), convert::cache(cache));
        let (a, b) = (&work.a, &work.b);
        collide_hulls(&mut manifold, 4, a, b, work.transform, &mut next);
    };
    let Some(Err(payload)) = quiet(|| catch_unwind(call)) else {
        return 0;
    };
    let words = payload.downcast::<String>().expect("a panic has words");
    let minus_one = format!("the index is {}", -1i32 as usize);
    if words.ends_with(&minus_one) {
        7
    } else if words.ends_with("the len is 64 but the index is 64") {
        6
    } else {
        assert!(words.starts_with("index out of bounds"), "{words}");
        5
    }
}

#[test]
fn panics_tell_the_refusals() {
    let mut numbers = Numbers::new(1);
    let n = &mut numbers;
    let mut met = [0; 8];
    for i in 0..4000 {
        let pair = pair(i, n);
        let (index_a, index_b) = (n.below(pair.a.size.faces), n.below(pair.b.size.faces));
        let work = Work::of_pair(&pair);
        for kind in [0, 2, 3] {
            let cache = SatCache {
                kind,
                index_a: index_a as u8,
                index_b: index_b as u8,
                ..SatCache::EMPTY
            };
            let refusal = told(&work, cache);
            assert_eq!(work.answer(4, cache).outcome.status, refusal, "{cache:?}");
            met[usize::from(refusal)] += 1;
        }
    }
    assert!(met[5] > 100 && met[6] > 30, "{met:?}");
}

/// Accepted: the answer of type 0 with the mark. Refused: the cache as it was, with its retired type, and no mark; and so
/// with a capacity below 4, where nothing is looked at.
#[test]
fn retired_types_act_as_type_0() {
    let mut numbers = Numbers::new(2);
    let n = &mut numbers;
    let mut met = [0; 7];
    for i in 0..4000 {
        let pair = pair(i, n);
        let cache = caches::any(n);
        let call = |capacity, kind| Call {
            capacity,
            a: pair.a.lent(),
            b: pair.b.lent(),
            transform: convert::our_transform(pair.transform),
            cache: SatCache { kind, ..cache },
        };
        let Answer {
            mut outcome,
            cache: next,
        } = call(4, 0).wanted();
        assert_eq!(outcome.retired, 0);
        outcome.retired = 1;
        met[usize::from(outcome.status)] += 1;
        for kind in SatCache::RETIRED_TYPES {
            let (retired, small) = (call(4, kind), call(3, kind));
            let wanted = match outcome.status {
                0 => Answer {
                    outcome,
                    cache: next,
                },
                refusal => empty(refusal, retired.cache),
            };
            assert!(same_answers(&retired.wanted(), &wanted), "{retired:?}");
            assert!(
                same_answers(&small.wanted(), &empty(0, small.cache)),
                "{small:?}"
            );
        }
    }
    assert!(met[0] > 3000 && met[5] > 30 && met[6] > 5, "{met:?}");
}

/// Two answers that differ in the mark alone are not the same.
#[test]
fn the_mark_is_compared() {
    let (answer, mut marked) = (empty(0, SatCache::EMPTY), empty(0, SatCache::EMPTY));
    assert!(same_answers(&answer, &marked));
    marked.outcome.retired = 1;
    assert!(!same_answers(&answer, &marked));
}

/// Two answers that differ in one place alone are not the same, whether it is used or not.
#[test]
fn places_are_compared() {
    let answer = empty(0, SatCache::EMPTY);
    for number in 0..answer.outcome.contact.points.len() {
        let mut placed = answer;
        let place = &mut placed.outcome.contact.points[number].place;
        assert_eq!(std::mem::replace(place, 0), 255);
        assert!(!same_answers(&answer, &placed), "point {number}");
    }
}

/// The largest of the pairs of edges as they are transcribed is the text's best one, to the last bit, with NaN among them too; and
/// the text's own search, which stops early, ends apart exactly where the question is answered by a yes.
#[test]
fn every_axis() {
    let mut numbers = Numbers::new(3);
    let n = &mut numbers;
    let (mut with_nan, mut answers) = (0, [0; 2]);
    for turn in 0..8000 {
        let pair = match SORTS.get(turn % (SORTS.len() + 1)) {
            Some((_, make)) => acceptable(make, n.unit(), n),
            None => pairs::any(n),
        };
        let work = Work::of_pair(&pair);
        let edges = work.edge_separations();
        let mut largest = f32::NEG_INFINITY;
        for &separation in &edges {
            if separation > largest {
                largest = separation;
            }
        }
        assert_eq!(largest.to_bits(), work.largest().edge.to_bits(), "{pair:?}");
        with_nan += usize::from(edges.iter().any(|edge| edge.is_nan()));
        let question = Question {
            a: pair.a.lent(),
            b: pair.b.lent(),
            transform: convert::our_transform(pair.transform),
        };
        let wanted = question.wanted();
        let stopped = work.search().separated_feature != SeparatingFeature::InvalidAxis;
        assert_eq!(wanted.accepted(), Ok(stopped), "{pair:?}");
        answers[usize::from(stopped)] += 1;
    }
    assert!(with_nan > 10, "{with_nan}");
    assert!(answers.iter().all(|&count| count > 1000), "{answers:?}");
}
