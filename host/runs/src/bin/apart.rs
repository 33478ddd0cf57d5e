//! Pairs of hulls through the question whether they are apart, each answer compared with a second writing over the Rust text:
//! every axis, then the largest separation; and with the call on the same hulls.
//!
//!     apart [COUNT [SEED]]
//!
//! Prints how often each case was met: which axis says yes, each refusal, the speculative distance to the float in each unit. The
//! run fails where an answer differs or such a case was not met often enough. Without the Rust text questions that are not refused
//! are held to the call alone, and the run says so.

use cases::number_argument;
use frames::apart;
use runs::Proved;

fn main() {
    let count = number_argument(1, "COUNT", 40_000) as usize;
    let seed = number_argument(2, "SEED", 1);
    if !cfg!(rust_text) {
        println!("left out, since the Rust text is not at hand: the search through every axis");
    }
    let good = apart::run(seed, count, &mut Proved).good();
    std::process::exit(if good { 0 } else { 1 });
}
