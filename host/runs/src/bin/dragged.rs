//! The story that the two sample programs of the question print (host/contact/examples/drag.rs, host/c/drag.c), told by the first of
//! them with every question answered by the second writing, over the Rust text, in the library's place. tools/hosts.sh holds both to
//! it.

#[cfg(rust_text)]
mod told {
    mod contact {
        pub use ::contact::*;
        use cases::calls::Question;

        /// As document 02 says, the search done by the text.
        pub fn apart(a: &Hull, b: &Hull, transform: Transform) -> Result<bool, Refusal> {
            let (a, b) = (a.lists(), b.lists());
            Question { a, b, transform }.wanted().accepted()
        }
    }

    include!("../../../contact/examples/drag.rs");
}

#[cfg(rust_text)]
fn main() -> std::process::ExitCode {
    told::main()
}

#[cfg(not(rust_text))]
fn main() {
    println!("left out, since the Rust text is not at hand: the story of the dragged log");
}
