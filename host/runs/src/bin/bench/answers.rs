//! Frames in bytes through the library, beside a plain Rust function that reads the same frame, judges both hulls by the
//! second validator and leaves the work to the Rust text.

use super::settled::{Settled, Step, FRAMES, PAIRS};
use super::{batches, head, line_of, timed_calls};
use frames::codec::{call_frame, LONGEST_ANSWER};
use frames::wanted;

/// Fewer than elsewhere, since a batch is long.
const COLD_BATCHES: usize = 40;
const WARM_BATCHES: usize = 5;

pub fn run(settled: &Settled) {
    let (first, later): (Vec<&Step>, Vec<&Step>) = settled.steps.iter().partition(|s| s.first);
    head("a frame in bytes, its answer", "plain Rust");
    both(settled, &format!("type 0, {PAIRS}"), COLD_BATCHES, &first);
    let count = PAIRS * (FRAMES - 1);
    both(settled, &format!("warm, {count}"), WARM_BATCHES, &later);
}

/// Panics where an answer differs.
fn both(settled: &Settled, what: &str, most: usize, steps: &[&Step]) {
    let frames = steps.iter().map(|step| call_frame(&settled.call(step)));
    let frames: Vec<Vec<u8>> = frames.collect();
    let mut answer = [0; LONGEST_ANSWER];
    for frame in &frames {
        let length = contact::answer_into(frame, &mut answer);
        assert_eq!(Some(&answer[..length]), wanted::to_frame(frame).as_deref());
    }
    let mut least = f64::MAX;
    line_of(
        batches(most),
        what,
        || {
            let ours = |frame: &Vec<u8>| contact::answer_into(frame, &mut answer);
            let (time, _) = timed_calls(frames.len(), &frames, ours);
            least = least.min(time);
            time
        },
        || {
            let plain =
                |frame: &Vec<u8>| wanted::to_frame_once(frame).map_or(0, |bytes| bytes.len());
            timed_calls(frames.len(), &frames, plain).0
        },
    );
    println!("  {:.0} frames a second", 1e9 / least);
}
