//! The given Rust text, unchanged and read where it stands, built together with one reading of the helpers that it
//! lacks: the oracle of everything the text holds. Beside it stands a copy of hulls.rs with one line put in, which carries a
//! candidate's place to the point that it becomes. Where the text is not at hand, only the readings are built.
//!
//! A metre has one length unit; what is done inside `core::with_length_units` has as many as that says.

mod awaited;
pub mod core;
pub mod math_functions;
mod quiet;

pub use quiet::quiet;

/// The folder of the text that was built in, if it was there.
#[cfg(rust_text)]
pub const TEXT: Option<&str> = Some(env!("ORACLE_RUST_TEXT"));

/// The folder of the text that was built in, if it was there.
#[cfg(not(rust_text))]
pub const TEXT: Option<&str> = None;

// The text's `constants`.
#[cfg(rust_text)]
include!(concat!(env!("OUT_DIR"), "/root.rs"));

#[cfg(rust_text)]
mod builder;
#[cfg(rust_text)]
pub mod distance;
#[cfg(rust_text)]
pub mod geometry;
#[cfg(rust_text)]
pub mod hull;
#[cfg(rust_text)]
pub mod open;
#[cfg(rust_text)]
pub mod transcribed;

/// The text's six manifold modules, and the copy of `hulls`.
#[cfg(rust_text)]
pub mod manifold {
    include!(concat!(env!("OUT_DIR"), "/manifold.rs"));
}

#[cfg(rust_text)]
pub use builder::hull;
