//! The cuts, the picks and the candidates of a face contact beside the Rust text.
//!
//!     cuts [SEED [COUNT]]
//!
//! COUNT scales every sort of input. A line says what was compared, how often, and how often the answers differ; below
//! it stands how often the cases that matter were met. The run fails where an answer differs or such a case was not met
//! often enough, as with a COUNT below 1,000. Without the text its part is left out, and said so.

use cases::{number_argument, Numbers};

mod hold;
mod images;
mod lists;
mod marked;
mod picks;
#[cfg(rust_text)]
mod text;

fn main() {
    let mut numbers = Numbers::new(number_argument(1, "SEED", 1));
    let n = &mut numbers;
    let count = number_argument(2, "COUNT", 40_000) as usize;
    let mut good = marked::rows().report("document 01's examples of a cut");
    good &= images::images(n, count).report("images and least separations");
    good &= images::touching(n).report("touching");
    good &= picks::each_once(n, count).report("picks, each candidate once");
    #[cfg(rust_text)]
    {
        good &= text::run(n, count);
    }
    #[cfg(not(rust_text))]
    println!("left out, since the Rust text is not at hand: cuts, picks, faces, face contacts");
    std::process::exit(if good { 0 } else { 1 });
}
