//! The square root beside the processor's own.

use super::{head, line};
use cases::Numbers;
use std::hint::black_box;
use std::time::Instant;

const INPUTS: usize = 4096;

pub fn run(numbers: &mut Numbers) {
    let inputs: Vec<f32> = (0..INPUTS)
        .map(|_| f32::from_bits(0x0080_0000 + (numbers.word() % 0x7f00_0000) as u32))
        .collect();
    head(
        &format!("square root, {INPUTS} normal numbers"),
        "processor",
    );
    line(
        "one after another, independent",
        || independent(&inputs, probes::root),
        || independent(&inputs, processor_root),
    );
    line(
        "each waits for the one before",
        || chained(&inputs, probes::root),
        || chained(&inputs, processor_root),
    );
}

/// One `sqrtss`, a call each as on our side: inlined, four would go at once.
#[inline(never)]
fn processor_root(x: f32) -> f32 {
    x.sqrt()
}

/// Nanoseconds a call where no call waits for another.
fn independent(inputs: &[f32], root: impl Fn(f32) -> f32) -> f64 {
    let start = Instant::now();
    let mut sum = 0u32;
    for &x in inputs {
        sum = sum.wrapping_add(root(x).to_bits());
    }
    black_box(sum);
    start.elapsed().as_nanos() as f64 / inputs.len() as f64
}

/// Nanoseconds a call where each input holds a part, zero, of the answer before it.
fn chained(inputs: &[f32], root: impl Fn(f32) -> f32) -> f64 {
    let zero = black_box(0.0f32);
    let start = Instant::now();
    let mut last = 0.0f32;
    for &x in inputs {
        last = root(x + last * zero);
    }
    black_box(last);
    start.elapsed().as_nanos() as f64 / inputs.len() as f64
}
