//! Writes the frames that are stored with the program, and their answers, which come from document 01 and the Rust text
//! alone and never from the program: the files `stdin` and `stdout` of a folder. The frames of a `stdin` that is there stay.
//!
//!     store crates/contact

#[cfg(rust_text)]
fn main() -> std::io::Result<()> {
    let Some(folder) = std::env::args_os().nth(1).map(std::path::PathBuf::from) else {
        eprintln!("usage: store FOLDER");
        std::process::exit(2);
    };
    let stored = std::fs::read(folder.join("stdin")).unwrap_or_default();
    let (input, output) = frames::stored::files(&stored);
    let lines = output.iter().filter(|&&byte| byte == b'\n').count();
    println!(
        "{lines} frames, {} bytes in and {} bytes out",
        input.len(),
        output.len()
    );
    std::fs::write(folder.join("stdin"), input)?;
    std::fs::write(folder.join("stdout"), output)
}

#[cfg(not(rust_text))]
fn main() {
    eprintln!("the Rust text is not at hand, and nothing is written");
    std::process::exit(2);
}
