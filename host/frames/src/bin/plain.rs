//! The plain program: what `contact` does, with the answers that document 01 wants, the work done by the Rust text. The
//! benchmark times `contact` beside it. With the name of a fault it has that fault, and the comparison is tried on it.
//!
//!     plain [FAULT]

use frames::{faults, hex};
use std::io::{self, BufRead, Write};

fn main() -> io::Result<()> {
    let answers = match std::env::args().nth(1) {
        None => faults::right_once,
        Some(name) => faults::named(&name).expect("there is such a fault"),
    };
    let mut from = io::stdin().lock();
    let mut to = io::BufWriter::new(io::stdout().lock());
    let mut line = Vec::new();
    while from.read_until(b'\n', &mut line)? > 0 {
        if let Some(answer) = answers(&line) {
            to.write_all(&hex::written(&answer))?;
            to.write_all(b"\n")?;
        }
        line.clear();
    }
    to.flush()
}
