//! The frames of the program `contact` and of the library that hosts link: a codec written from documents 01 and 02 alone,
//! the answer that document 01 wants, frames of every sort from a seed, and the runs that hold a program or a library to the
//! answers. Nothing here calls the proved code. Where document 01 is named, it is meant as document 02's requests have
//! changed it.

pub mod apart;
pub mod codec;
pub mod faults;
pub mod fuzz;
pub mod held;
pub mod hex;
#[cfg(rust_text)]
pub mod largest;
pub mod library;
pub mod mix;
pub mod program;
pub mod requests;
pub mod sorts;
pub mod steps;
#[cfg(rust_text)]
pub mod stored;
pub mod wanted;

use std::borrow::Cow;

/// The most characters of a line that is read.
pub const LONGEST_LINE: usize = 20_000;

/// A frame that is sent.
#[derive(Debug, Clone, PartialEq, Eq)]
pub enum Frame {
    /// By its bytes; a program is sent them in hexadecimal.
    Bytes(Vec<u8>),
    /// A line that is no bytes in hexadecimal. Only a program can be sent it.
    Line(Vec<u8>),
}

impl Frame {
    /// As a program is sent it, without the line's end.
    pub fn line(&self) -> Cow<'_, [u8]> {
        match self {
            Frame::Bytes(bytes) => Cow::Owned(hex::written(bytes)),
            Frame::Line(line) => Cow::Borrowed(line),
        }
    }

    /// As a library is sent it.
    pub fn bytes(&self) -> Option<&[u8]> {
        match self {
            Frame::Bytes(bytes) => Some(bytes),
            Frame::Line(_) => None,
        }
    }
}
