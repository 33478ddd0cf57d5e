//! The answers that document 01 wants. A call that is not refused before any work needs the Rust text: where that is not
//! at hand, there is no answer.

use crate::codec::{self, Asked, Fault};
use crate::{hex, LONGEST_LINE};
#[cfg(rust_text)]
use cases::calls::Work;
use cases::calls::{Answer, Call, Given};
use records::FeaturePair;

/// The answer to a call; none where it cannot be told.
type ToCall = fn(&Call) -> Option<Answer>;

/// To a line without its end, in bytes. "Faults, in order: ff24 over 20,000 characters, ff21 not lowercase hex or odd",
/// then those of the frame.
pub fn to_line(line: &[u8]) -> Option<Vec<u8>> {
    line_by(line, to_call)
}

/// The same with the work of a call done once, by the copy of the Rust text alone: for what is timed.
pub fn to_line_once(line: &[u8]) -> Option<Vec<u8>> {
    line_by(line, to_call_once)
}

/// To a frame in bytes, however long.
pub fn to_frame(frame: &[u8]) -> Option<Vec<u8>> {
    frame_by(frame, to_call)
}

/// The same with the work of a call done once.
pub fn to_frame_once(frame: &[u8]) -> Option<Vec<u8>> {
    frame_by(frame, to_call_once)
}

fn line_by(line: &[u8], to_call: ToCall) -> Option<Vec<u8>> {
    if line.len() > LONGEST_LINE {
        return Some(Fault::TooLong.answer());
    }
    match hex::read(line) {
        Some(frame) => frame_by(&frame, to_call),
        None => Some(Fault::NotHex.answer()),
    }
}

fn frame_by(frame: &[u8], to_call: ToCall) -> Option<Vec<u8>> {
    match codec::decode(frame) {
        Ok(Asked::Root(bits)) => Some(codec::root_answer(root(bits))),
        Ok(Asked::Flip(pair)) => Some(flip(pair)),
        Ok(Asked::Call(given)) => to_call(&given.call()).as_ref().map(codec::call_answer),
        Err(fault) => Some(fault.answer()),
    }
}

/// "Either zero gives itself; a number below zero and any NaN give 7fc00000; plus infinity gives itself"; else the
/// processor's root, which IEEE 754 makes the nearest. Both are told by the bits: rustc takes any NaN for any other.
pub fn root(bits: u32) -> u32 {
    match bits {
        0x7f80_0001..=0x7fff_ffff | 0x8000_0001..=0xffff_ffff => 0x7fc0_0000,
        _ => f32::from_bits(bits).sqrt().to_bits(),
    }
}

/// The two features change places, and each becomes the other hull's. "ff08 for refusal 8".
fn flip(pair: FeaturePair) -> Vec<u8> {
    if pair.owner1 > 1 || pair.owner2 > 1 {
        return Fault::Owner.answer();
    }
    codec::flip_answer(FeaturePair {
        owner1: 1 - pair.owner2,
        index1: pair.index2,
        owner2: 1 - pair.owner1,
        index2: pair.index1,
    })
}

#[cfg(rust_text)]
fn to_call(call: &Call) -> Option<Answer> {
    Some(call.wanted())
}

#[cfg(rust_text)]
fn to_call_once(call: &Call) -> Option<Answer> {
    Some(call.wanted_once())
}

#[cfg(not(rust_text))]
fn to_call(call: &Call) -> Option<Answer> {
    call.without_work()
}

#[cfg(not(rust_text))]
use to_call as to_call_once;

/// How many candidates the contact of an answer to this call has.
#[cfg(rust_text)]
pub fn candidates(given: &Given, answer: &[u8]) -> usize {
    let next = codec::read_answer(answer)
        .expect("the answer to a call")
        .cache;
    Work::of_call(&given.call()).candidates(next).len()
}

/// None that can be told.
#[cfg(not(rust_text))]
pub fn candidates(_: &Given, _: &[u8]) -> usize {
    0
}

/// The whole output for a whole input: a line for each line, the last of which may lack its end.
pub fn to_input(input: &[u8]) -> Option<Vec<u8>> {
    let mut output = Vec::new();
    for line in input.split_inclusive(|&byte| byte == b'\n') {
        let line = line.strip_suffix(b"\n").unwrap_or(line);
        output.extend(hex::written(&to_line(line)?));
        output.push(b'\n');
    }
    Some(output)
}
