//! The whole call beside document 01: its refusals by the second validator, its work by the text's `collide_hulls`.
//!
//!     calls [SEED [COUNT]]
//!
//! COUNT is how many pairs of hulls of each sort are tried, twelve calls each. A line says what was compared, how often,
//! and how often the answers differ; below it stands how often the cases that matter were met. The run fails where an
//! answer differs or such a case was not met often enough, as with a COUNT below 300. Without the text its part is left
//! out, and said so.

use cases::{number_argument, Numbers};
use retired::Retired;

mod marked;
mod refusals;
mod retired;
#[cfg(rust_text)]
mod text;

fn main() {
    let mut numbers = Numbers::new(number_argument(1, "SEED", 1));
    let n = &mut numbers;
    let count = number_argument(2, "COUNT", 700) as usize;
    let mut good = marked::rows().report("document 01's runs of a call");
    let mut retired = Retired::default();
    good &= refusals::run(n, count, &mut retired);
    #[cfg(rust_text)]
    {
        good &= text::run(n, count, &mut retired);
    }
    #[cfg(not(rust_text))]
    println!(
        "left out, since the Rust text is not at hand: calls that are not refused before any work"
    );
    good &= retired.report(count);
    std::process::exit(if good { 0 } else { 1 });
}
