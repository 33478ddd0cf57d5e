//! The validator beside the second one.

use super::{batches, head, line_of, timed_calls, BATCHES, CALLS};
use cases::shapes::kinds::any_log;
use cases::shapes::solids::{block, frustum, polygon, pyramid};
use cases::shapes::Shape;
use cases::Numbers;
use records::HullLists;

/// 5 MB of logs, more than the near caches hold.
const MANY: usize = 6000;

/// Good hulls, so that every rule is gone through.
pub fn run(numbers: &mut Numbers) {
    let log = frustum(&polygon(12, 0.3), 1.0, 6.0);
    let mut logs = |count| -> Vec<Shape> {
        (0..count)
            .map(|_| Shape::any(&any_log(numbers), numbers))
            .collect()
    };
    head("first broken rule of a good hull", "plain Rust");
    for (what, most, shapes) in [
        ("log (V 24, H 72, F 14)", BATCHES, vec![Shape::new(&log)]),
        ("cube", BATCHES, vec![Shape::new(&block([1.0; 3]))]),
        (
            "64-gon pyramid",
            BATCHES,
            vec![Shape::new(&pyramid(64, 1.0, 1.0))],
        ),
        ("64 different logs in turn", BATCHES, logs(64)),
        ("6,000 different logs in turn", BATCHES / 6, logs(MANY)),
    ] {
        line_of(
            batches(most),
            what,
            || judged(&shapes, runs::broken_rule),
            || judged(&shapes, cases::shapes::broken_rule),
        );
    }
}

/// Nanoseconds a call on these good hulls in turn, each at least once.
fn judged(shapes: &[Shape], rule: impl Fn(HullLists) -> u8) -> f64 {
    let calls = shapes.len().max(CALLS);
    let (nanoseconds, good) =
        timed_calls(calls, shapes, |shape| usize::from(rule(shape.lent()) == 0));
    assert_eq!(good, calls);
    nanoseconds
}
