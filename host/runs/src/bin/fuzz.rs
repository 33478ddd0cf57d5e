//! Any bytes through the library that hosts link: frames changed a little or much and bytes at random, into places of
//! every size, each answer compared with the one that document 01 wants; one round in eight any lists through its step, and one any
//! hulls and transform through its question whether they are apart.
//!
//!     fuzz [MINUTES [SEED [ROUND]]]
//!
//! A difference is shown with its seed and its round; with ROUND the run begins there. Without the Rust text, calls that
//! do any work are made all the same and held to nothing but where they write.

use cases::number_argument;
use frames::fuzz::Fuzz;
use runs::Proved;
use std::time::Duration;

fn main() {
    let minutes = number_argument(1, "MINUTES", 60);
    let seed = number_argument(2, "SEED", 1);
    let from = number_argument(3, "ROUND", 0);
    println!("{minutes} minutes, seed {seed}, from round {from}");
    let time = Duration::from_secs(60 * minutes);
    let fuzzed = Fuzz::new(seed).run(&mut Proved, from, u64::MAX, time);
    let good = fuzzed.rounds > 0 && fuzzed.different == 0;
    std::process::exit(if good { 0 } else { 1 });
}
