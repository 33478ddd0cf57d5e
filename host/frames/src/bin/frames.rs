//! Frames of every sort through a program, each answer compared byte for byte with the one that document 01 wants.
//!
//!     frames [COUNT [SEED]] -- PROGRAM [ARGUMENTS]
//!
//! Prints how often each sort of frame, fault, refusal, rule, unit, cache type, place and mark was met, then how many frames were
//! compared and how many answers differ. The run fails where an answer differs or something that must be met was not, as with a
//! COUNT below 50,000. Without the Rust text, calls that do any work are left out, and said so.

use frames::program;
use frames::sorts::Frames;
use std::env::args;
use std::process::{exit, Command};

fn main() {
    let usage = || -> ! {
        eprintln!("usage: frames [COUNT [SEED]] -- PROGRAM [ARGUMENTS]");
        exit(2);
    };
    let numbers: Vec<String> = args().skip(1).take_while(|word| word != "--").collect();
    let words: Vec<String> = args().skip(1 + numbers.len() + 1).collect();
    if numbers.len() > 2 || words.is_empty() {
        usage();
    }
    let number = |place: usize, default: u64| match numbers.get(place) {
        None => default,
        Some(word) => word.parse().unwrap_or_else(|_| usage()),
    };
    let (count, seed) = (number(0, 200_000), number(1, 1));
    if !cfg!(rust_text) {
        println!("left out, since the Rust text is not at hand: calls that do any work");
    }
    let mut command = Command::new(&words[0]);
    command.args(&words[1..]);
    let frames = Frames::new(seed);
    let held = program::ends(&mut command)
        .and_then(|good| Ok(program::run(&frames, count as usize, &mut command)?.good() & good));
    match held {
        Ok(good) => exit(if good { 0 } else { 1 }),
        Err(error) => {
            eprintln!("the program {words:?} could not be run: {error}");
            exit(2);
        }
    }
}
