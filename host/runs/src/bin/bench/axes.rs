//! The axis search of settled logs, and of hulls as large as the rules allow, beside the Rust text's, which stops early as
//! ours does. Every pair is searched once a batch, so that the line of a whole mix is the mean over its true shares. The hulls
//! and transforms were judged before.

use super::{batches, head, line_of, timed_calls};
use cases::pairs::{placed, turned_or_not};
use cases::settled::{Class, Stack};
use cases::shapes::kinds::{KindOfRadius, LARGEST};
use cases::{convert, pairs, Numbers};
use oracle::hull::HullData;
use oracle::math_functions as reading;
use oracle::open::{search, AxisQuery, SeparatingFeature};
use probes::{Accepted, Placed, Searched, Unit};
use runs::accepted;
use runs::searches::{answer, same_answers};

const LOGS: usize = 64;
const PAIRS: usize = 2000;

/// Fewer than elsewhere, since a batch is long.
const BATCHES: usize = 100;

/// Of each kind of the largest hulls.
const LARGEST_PAIRS: usize = 400;

/// A pair in the records of both sides.
pub struct Pair<'a> {
    kind: &'static str,
    ours: (Accepted<'a>, Accepted<'a>, Placed),
    theirs: (&'a HullData, &'a HullData, reading::Transform),
}

impl<'a> Pair<'a> {
    /// The pair, and its hulls in the text's records.
    pub fn new(kind: &'static str, pair: &'a pairs::Pair, [a, b]: &'a [HullData; 2]) -> Self {
        let transform = convert::our_transform(pair.transform);
        Pair {
            kind,
            ours: (
                accepted(&pair.a),
                accepted(&pair.b),
                Placed::new(pair.unit(), transform),
            ),
            theirs: (a, b, pair.transform),
        }
    }

    pub fn ours(&self) -> Searched {
        let (a, b, placed) = self.ours;
        probes::compute_separating_axis(a, b, placed)
    }

    pub fn theirs(&self) -> AxisQuery {
        let (a, b, transform) = self.theirs;
        search(a, b, transform, true)
    }
}

pub fn run(n: &mut Numbers) {
    settled(n);
    largest(n);
}

fn settled(n: &mut Numbers) {
    let stack = Stack::new(LOGS, PAIRS, n);
    let hulls: Vec<HullData> = stack.logs.iter().map(convert::hull).collect();
    let pairs: Vec<Pair> = (stack.pairs.iter())
        .map(|pair| Pair {
            kind: pair.class.name(),
            ours: (
                accepted(&stack.logs[pair.a]),
                accepted(&stack.logs[pair.b]),
                Placed::new(Unit::Metres, pair.transform),
            ),
            theirs: (
                &hulls[pair.a],
                &hulls[pair.b],
                convert::transform(pair.transform),
            ),
        })
        .collect();
    head(&format!("axis search, {PAIRS} settled pairs"), "Rust text");
    lines(&pairs, &Class::ALL.map(Class::name), BATCHES);
}

/// Every pair has hulls of its own, about each other's surfaces, so that few searches stop early.
fn largest(n: &mut Numbers) {
    let mut of_kind = |(kind, solid): KindOfRadius| {
        let mut shape = || {
            let radius = n.between(0.5, 5.0);
            turned_or_not(solid(radius, n), n)
        };
        let (a, b) = (shape(), shape());
        (kind, placed(a, b, n))
    };
    let pairs: Vec<(&str, pairs::Pair)> = (LARGEST.iter())
        .flat_map(|&kind| [kind; LARGEST_PAIRS])
        .map(&mut of_kind)
        .collect();
    let hulls: Vec<[HullData; 2]> = (pairs.iter())
        .map(|(_, pair)| [&pair.a, &pair.b].map(convert::hull))
        .collect();
    let pairs: Vec<Pair> = (pairs.iter().zip(&hulls))
        .map(|((kind, pair), hulls)| Pair::new(kind, pair, hulls))
        .collect();
    let count = pairs.len();
    head(&format!("axis search, {count} pairs, largest"), "Rust text");
    lines(&pairs, &LARGEST.map(|(kind, _)| kind), BATCHES / 5);
}

/// A line for each kind and one for all, once the answers of both sides are the same.
fn lines(pairs: &[Pair], kinds: &[&str], most: usize) {
    let answers: Vec<Searched> = pairs.iter().map(Pair::ours).collect();
    for (ours, pair) in answers.iter().zip(pairs) {
        let theirs = answer(&pair.theirs());
        assert!(same_answers(ours, &theirs), "{ours:?}, {theirs:?}");
    }
    for &kind in kinds {
        let of_kind: Vec<&Pair> = pairs.iter().filter(|pair| pair.kind == kind).collect();
        both(most, &format!("{kind}, {}", of_kind.len()), &of_kind);
    }
    both(most, "the whole mix", &pairs.iter().collect::<Vec<_>>());
    mix(most, &answers);
}

fn both(most: usize, what: &str, pairs: &[&Pair]) {
    let (mut a, mut b) = (0, 0);
    line_of(
        batches(most),
        what,
        || {
            let (nanoseconds, apart) =
                timed_calls(pairs.len(), pairs, |pair| usize::from(pair.ours().apart));
            a += apart;
            nanoseconds
        },
        || {
            let (nanoseconds, apart) = timed_calls(pairs.len(), pairs, |pair| {
                let feature = pair.theirs().separated_feature;
                usize::from(feature != SeparatingFeature::InvalidAxis)
            });
            b += apart;
            nanoseconds
        },
    );
    assert_eq!(a, b, "{what}");
}

/// One line: how often was timed, and how the pairs of the mix were answered.
fn mix(most: usize, answers: &[Searched]) {
    let apart = |kind: u8| {
        let of_kind = answers.iter().filter(|s| s.apart && s.kind == kind);
        of_kind.count()
    };
    let (by_a, by_b, by_edges) = (apart(2), apart(3), apart(4));
    let with_pair = answers.iter().filter(|s| s.pair).count();
    let without = answers.len() - by_a - by_b - by_edges - with_pair;
    println!(
        "  least of {} batches; apart along a face of A {by_a}, of B {by_b}, along an edge pair {by_edges}; \
         found with an edge pair {with_pair}, without {without}",
        batches(most)
    );
}
