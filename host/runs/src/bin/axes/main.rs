//! The axis search beside the Rust text's `compute_separating_axis`.
//!
//!     axes [SEED [COUNT]]
//!
//! COUNT is how many pairs of hulls of each sort are searched. A line says what was compared, how often, and how often the
//! answers differ; below them stands how often the cases that matter were met. The run fails where an answer differs or such
//! a case was not met often enough. Without the text nothing is compared, and the run says so.

#[cfg(rust_text)]
mod text;

#[cfg(rust_text)]
fn main() {
    let mut numbers = cases::Numbers::new(cases::number_argument(1, "SEED", 1));
    let count = cases::number_argument(2, "COUNT", 20_000) as usize;
    let good = text::run(&mut numbers, count);
    std::process::exit(if good { 0 } else { 1 });
}

#[cfg(not(rust_text))]
fn main() {
    println!("left out, since the Rust text is not at hand: axis searches");
}
