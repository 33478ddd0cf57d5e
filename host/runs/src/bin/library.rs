//! Frames of every sort through the library that hosts link, each answer compared byte for byte with the one that
//! document 01 wants, and the calls among them by records as well. Then steps, one for 20 frames: lists of hulls and pairs at
//! random through `contact_step`, the caches carried from step to step, each held to a second writing of what a step does.
//!
//!     library [COUNT [SEED]]
//!
//! Prints and fails as `frames` does. Without the Rust text, calls that do any work are left out, and said so.

use cases::number_argument;
use frames::sorts::Frames;
use frames::{library, steps};
use runs::Proved;

const FRAMES_A_STEP: usize = 20;

fn main() {
    let count = number_argument(1, "COUNT", 200_000) as usize;
    let seed = number_argument(2, "SEED", 1);
    if !cfg!(rust_text) {
        println!("left out, since the Rust text is not at hand: calls that do any work");
    }
    let frames = library::run(&Frames::new(seed), count, &mut Proved);
    let steps = steps::run(seed, count / FRAMES_A_STEP, &mut Proved);
    let good = frames.good() && steps.good();
    std::process::exit(if good { 0 } else { 1 });
}
