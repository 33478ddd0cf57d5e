//! The story that the two sample programs print (host/contact/examples/settle.rs, host/c/settle.c), told by the first of
//! them with every call answered by the Rust text in the library's place. tools/hosts.sh holds both to it.

#[cfg(rust_text)]
mod told {
    mod contact {
        pub use ::contact::*;
        use cases::calls::Call;

        /// As document 01 says, the work done by the text.
        pub fn collide(a: &Hull, b: &Hull, transform: Transform, cache: &mut SatCache) -> Outcome {
            let answer = Call {
                capacity: MAX_MANIFOLD_POINTS as i32,
                a: a.lists(),
                b: b.lists(),
                transform,
                cache: *cache,
            }
            .wanted();
            *cache = answer.cache;
            answer.outcome
        }
    }

    include!("../../../contact/examples/settle.rs");
}

#[cfg(rust_text)]
fn main() -> std::process::ExitCode {
    told::main()
}

#[cfg(not(rust_text))]
fn main() {
    println!("left out, since the Rust text is not at hand: the story of the samples");
}
