//! The whole call on settled logs beside the Rust text's `collide_hulls`, which judges no hull: with a cache of type 0,
//! and through frames of small movements with the cache of the frame before. Ours judges both hulls each time; what
//! that takes by itself is timed in the same batches and taken off in a line of its own. Every call of the mix is made
//! once a batch, so that its line is the mean over the true shares.

use super::settled::{Settled, Step, PAIRS};
use super::{batches, head, least_of, row, timed_calls};
use cases::calls::{same_answers, Answer, Call};
use cases::convert;
use cases::settled::Class;
use oracle::hull::HullData;
use oracle::math_functions as reading;
use oracle::open::{self, collide_hulls, LocalManifold};
use runs::broken_rule;

/// Fewer than elsewhere, since a batch is long.
const COLD_BATCHES: usize = 100;
const WARM_BATCHES: usize = 20;

/// A call in the records of both sides.
pub struct Both<'a> {
    ours: Call<'a>,
    theirs: (&'a HullData, &'a HullData, reading::Transform),
    cache: open::SatCache,
}

/// The same with its class and its answer.
struct Timed<'a> {
    class: Class,
    both: Both<'a>,
    answer: Answer,
}

impl<'a> Timed<'a> {
    /// Panics where the two sides differ.
    fn new(settled: &'a Settled, step: &Step) -> Self {
        let ours = settled.call(step);
        let (answer, wanted) = (runs::ours(&ours), step.wanted);
        assert!(same_answers(&answer, &wanted), "{answer:?}, {wanted:?}");
        let (a, b) = settled.hulls(step);
        Timed {
            class: step.class(),
            both: Both::new(ours, a, b),
            answer,
        }
    }
}

impl<'a> Both<'a> {
    /// The call, and its hulls in the text's records.
    pub fn new(ours: Call<'a>, a: &'a HullData, b: &'a HullData) -> Self {
        Both {
            ours,
            theirs: (a, b, convert::transform(ours.transform)),
            cache: convert::cache(ours.cache),
        }
    }

    /// How many points.
    pub fn ours(&self) -> usize {
        runs::ours(&self.ours).outcome.contact.count.into()
    }

    pub fn theirs(&self, manifold: &mut LocalManifold) -> usize {
        let (a, b, transform) = self.theirs;
        let mut cache = self.cache;
        collide_hulls(manifold, self.ours.capacity, a, b, transform, &mut cache);
        manifold.point_count as usize
    }

    /// How many of the two hulls are good.
    fn judged(&self) -> usize {
        [self.ours.a, self.ours.b]
            .into_iter()
            .filter(|&hull| broken_rule(hull) == 0)
            .count()
    }
}

pub fn run(settled: &Settled) {
    let timed = |step| Timed::new(settled, step);
    let (first, later): (Vec<&Step>, Vec<&Step>) = settled.steps.iter().partition(|s| s.first);
    let cold: Vec<Timed> = first.into_iter().map(timed).collect();
    let warm: Vec<Timed> = later.into_iter().map(timed).collect();
    head(&format!("call, type 0, {PAIRS} settled pairs"), "Rust text");
    rows(batches(COLD_BATCHES), &cold);
    head(&format!("call, warm, {} frames", warm.len()), "Rust text");
    rows(batches(WARM_BATCHES), &warm);
}

fn rows(batches: usize, calls: &[Timed]) {
    for class in Class::ALL {
        let of_class = calls.iter().filter(|call| call.class == class);
        let of_class: Vec<&Both> = of_class.map(|call| &call.both).collect();
        let [ours, theirs, _] = times(batches, &of_class);
        row(
            &format!("{}, {}", class.name(), of_class.len()),
            ours,
            theirs,
        );
    }
    let all: Vec<&Both> = calls.iter().map(|call| &call.both).collect();
    let [ours, theirs, judging] = times(batches, &all);
    row("the whole mix", ours, theirs);
    row("less judging both hulls", ours - judging, theirs);
    println!("  judging both hulls {judging:.2}; least of {batches} batches");
    mix(calls);
}

/// Nanoseconds a call: ours, the text's, and judging both hulls.
fn times(batches: usize, calls: &[&Both]) -> [f64; 3] {
    let mut manifold = LocalManifold::default();
    let (mut points, mut their_points, mut good) = (0, 0, 0);
    let least = least_of(
        batches,
        [
            &mut || {
                let (time, sum) = timed_calls(calls.len(), calls, |call| call.ours());
                points += sum;
                time
            },
            &mut || {
                let (time, sum) =
                    timed_calls(calls.len(), calls, |call| call.theirs(&mut manifold));
                their_points += sum;
                time
            },
            &mut || {
                let (time, sum) = timed_calls(calls.len(), calls, |call| call.judged());
                good += sum;
                time
            },
        ],
    );
    assert_eq!(points, their_points);
    assert_eq!(good, 2 * batches * calls.len());
    least
}

/// Two lines: how the calls went, and what came out.
fn mix(calls: &[Timed]) {
    let points = |call: &Timed| usize::from(call.answer.outcome.contact.count);
    let hit = |call: &Timed| call.answer.cache.hit == 1;
    let cached = |call: &Timed| (2..=4).contains(&call.both.ours.cache.kind);
    let how_many = |wanted: &dyn Fn(&Timed) -> bool| calls.iter().filter(|c| wanted(c)).count();
    println!(
        "  hits without points {}, with points {}; misses {}; full searches without a cached axis {}",
        how_many(&|c| hit(c) && points(c) == 0),
        how_many(&|c| hit(c) && points(c) > 0),
        how_many(&|c| !hit(c) && cached(c)),
        how_many(&|c| !hit(c) && !cached(c)),
    );
    let contacts = how_many(&|c| points(c) > 0);
    let all: usize = calls.iter().map(points).sum();
    println!(
        "  contacts {contacts}, {} of them of a pair of edges, {:.2} points a contact; no contact {}",
        how_many(&|c| points(c) > 0 && c.answer.cache.kind == 4),
        all as f64 / contacts as f64,
        calls.len() - contacts,
    );
}
