//! Writes calls of every kind on the largest hulls there are, and their answers, which come from document 01 and the Rust
//! text alone: two files of lines in hexadecimal.
//!
//!     largest FRAMES ANSWERS

#[cfg(rust_text)]
fn main() -> std::io::Result<()> {
    use frames::{hex, largest, wanted};

    let [Some(frames), Some(answers)] = [1, 2].map(|place| std::env::args_os().nth(place)) else {
        eprintln!("usage: largest FRAMES ANSWERS");
        std::process::exit(2);
    };
    let (mut lines, mut told) = (Vec::new(), Vec::new());
    for frame in largest::frames() {
        let line = frame.line();
        let answer = wanted::to_line(&line).expect("the Rust text is at hand");
        lines.extend(line.iter());
        lines.push(b'\n');
        told.extend(hex::written(&answer));
        told.push(b'\n');
    }
    std::fs::write(frames, lines)?;
    std::fs::write(answers, told)
}

#[cfg(not(rust_text))]
fn main() {
    eprintln!("the Rust text is not at hand, and nothing is written");
    std::process::exit(2);
}
