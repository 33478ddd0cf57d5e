//! Times the proved layers beside the Rust, both sides in one run on the same inputs, and prints nanoseconds a call and
//! their ratio. The least of many batches counts, since other work on the machine only ever adds.
//!
//!     bench [quick] [PART]... [--chart FILE] [-- PROGRAM [ARGUMENTS]]
//!
//! PROGRAM is the proved program, `target/bin/contact` where none is named. With `quick` there is one batch of each, to see
//! that all of it runs; its times mean nothing. Where parts are named, only these are timed: roots, validators, cuts, axes, apart,
//! calls, answers, programs, steps, growth. With FILE the growth is drawn there, as SVG.

use cases::Numbers;
use std::env::args;
use std::hint::black_box;
use std::time::Instant;

#[cfg(rust_text)]
mod answers;
#[cfg(rust_text)]
mod apart;
#[cfg(rust_text)]
mod axes;
#[cfg(rust_text)]
mod calls;
#[cfg(rust_text)]
mod chart;
#[cfg(rust_text)]
mod cuts;
#[cfg(rust_text)]
mod growth;
#[cfg(rust_text)]
mod programs;
mod roots;
#[cfg(rust_text)]
mod settled;
#[cfg(rust_text)]
mod steps;
mod validators;

const CALLS: usize = 1024;
const BATCHES: usize = 600;

const PARTS: [&str; 10] = [
    "roots",
    "validators",
    "cuts",
    "axes",
    "apart",
    "calls",
    "answers",
    "programs",
    "steps",
    "growth",
];

fn main() {
    let words: Vec<String> = words().collect();
    let file = words.iter().position(|word| word == "--chart");
    let file = file.map(|place| place + 1);
    let parts = words.iter().enumerate().filter(|&(place, word)| {
        let other = word == "quick" || word == "--chart" || Some(place) == file;
        !other
    });
    let parts: Vec<&str> = parts.map(|(_, word)| word.as_str()).collect();
    let unknown = parts.iter().find(|part| !PARTS.contains(part));
    if unknown.is_some() || file.is_some_and(|place| place >= words.len()) {
        eprintln!("usage: bench [quick] [PART]... [--chart FILE] [-- PROGRAM [ARGUMENTS]]; parts: {PARTS:?}");
        std::process::exit(2);
    }
    let timed = |part: &str| parts.is_empty() || parts.contains(&part);

    let mut numbers = Numbers::new(1);
    println!("least of {} batches, ns a call", batches(BATCHES));
    if timed("roots") {
        roots::run(&mut numbers);
    }
    if timed("validators") {
        validators::run(&mut numbers);
    }
    #[cfg(rust_text)]
    {
        if timed("cuts") {
            cuts::run(&mut numbers);
        }
        if timed("axes") {
            axes::run(&mut numbers);
        }
        if ["calls", "answers", "programs"].into_iter().any(timed) {
            let settled = settled::Settled::new(&mut numbers);
            if timed("calls") {
                calls::run(&settled);
            }
            if timed("answers") {
                answers::run(&settled);
            }
            if timed("programs") {
                let named: Vec<String> = args().skip_while(|word| word != "--").skip(1).collect();
                programs::run(&settled, &named, &mut numbers);
            }
        }
        // Numbers of their own, so that the same is timed in every run.
        if timed("apart") {
            apart::run(&mut Numbers::new(4));
        }
        if timed("steps") {
            steps::run(&mut Numbers::new(2));
        }
        if timed("growth") {
            let file = file.map(|place| words[place].as_str());
            growth::run(file, &mut Numbers::new(3));
        }
    }
    #[cfg(not(rust_text))]
    println!("left out, since the Rust text is not at hand: all parts but roots and validators");
}

/// The arguments before the program's.
fn words() -> impl Iterator<Item = String> {
    args().skip(1).take_while(|word| word != "--")
}

/// So many, or one where the run is a quick one.
fn batches(most: usize) -> usize {
    let quick = words().any(|word| word == "quick");
    if quick {
        1
    } else {
        most
    }
}

fn head(what: &str, theirs: &str) {
    println!("{what:<34} {:>7}  {theirs:>10}  ratio", "ours");
}

fn line(what: &str, ours: impl FnMut() -> f64, theirs: impl FnMut() -> f64) {
    line_of(batches(BATCHES), what, ours, theirs);
}

fn line_of(
    batches: usize,
    what: &str,
    mut ours: impl FnMut() -> f64,
    mut theirs: impl FnMut() -> f64,
) {
    let [a, b] = least_of(batches, [&mut ours, &mut theirs]);
    row(what, a, b);
}

fn row(what: &str, ours: f64, theirs: f64) {
    let ratio = ours / theirs;
    println!("  {what:<32} {ours:>7.2}  {theirs:>10.2}  {ratio:>5.2}");
}

/// The least of each. They take turns, so that all meet the machine as it is at the time.
fn least_of<const N: usize>(batches: usize, mut timed: [&mut dyn FnMut() -> f64; N]) -> [f64; N] {
    let mut least = [f64::MAX; N];
    for _ in 0..batches {
        for (least, timed) in least.iter_mut().zip(&mut timed) {
            *least = least.min(timed());
        }
    }
    least
}

/// Nanoseconds a call on these inputs in turn, and the sum of the answers.
fn timed<T>(inputs: &[T], call: impl FnMut(&T) -> usize) -> (f64, usize) {
    timed_calls(CALLS, inputs, call)
}

fn timed_calls<T>(calls: usize, inputs: &[T], mut call: impl FnMut(&T) -> usize) -> (f64, usize) {
    let start = Instant::now();
    let mut sum = 0;
    for input in inputs.iter().cycle().take(calls) {
        sum += call(black_box(input));
    }
    let nanoseconds = start.elapsed().as_nanos() as f64;
    (nanoseconds / calls as f64, sum)
}

/// The least of these times, and the one in the middle.
#[cfg(rust_text)]
fn least_and_median(mut times: Vec<f64>) -> (f64, f64) {
    times.sort_by(f64::total_cmp);
    (times[0], times[times.len() / 2])
}
