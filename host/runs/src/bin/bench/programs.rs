//! The proved program through a pipe, beside the plain Rust program on the same lines: from its start to the end of its
//! output.

use super::batches;
use super::settled::{Settled, Step};
use cases::Numbers;
use frames::codec::{call_frame, root_frame};
use frames::hex;
use std::io::{self, Read, Write};
use std::path::Path;
use std::process::{Command, Stdio};
use std::thread;
use std::time::Instant;

/// Where the proved program is, from the project's folder.
const PROVED: &str = "target/bin/contact";

const ROOTS: usize = 500_000;

/// Every so many-th warm frame.
const ONE_IN: usize = 8;

const RUNS: usize = 7;

pub fn run(settled: &Settled, named: &[String], n: &mut Numbers) {
    let named: &[String] = if named.is_empty() {
        &[PROVED.to_string()]
    } else {
        named
    };
    if !Path::new(&named[0]).exists() {
        println!("left out, since it is not there: the program {}", named[0]);
        return;
    }
    let own = std::env::current_exe().expect("this program has a path");
    let plain = [own.with_file_name("plain").display().to_string()];
    let roots: Vec<Vec<u8>> = (0..ROOTS).map(|_| root_frame(n.word() as u32)).collect();
    let of = |first: bool, one_in: usize| {
        let steps = settled.steps.iter().filter(|step| step.first == first);
        let frame = |step: &Step| call_frame(&settled.call(step));
        steps.step_by(one_in).map(frame).collect::<Vec<_>>()
    };
    println!(
        "{:<34} {:>10} {:>6}  {:>10} {:>6}  ratio",
        "the program, through a pipe", "frames/s", "MB/s", "plain Rust", "MB/s"
    );
    row("roots", &roots, named, &plain);
    row("calls, type 0", &of(true, 1), named, &plain);
    row("calls, warm", &of(false, ONE_IN), named, &plain);
}

/// Both on the same lines in turn. Panics where their output differs.
fn row(what: &str, frames: &[Vec<u8>], ours: &[String], theirs: &[String]) {
    let mut input = Vec::new();
    for frame in frames {
        input.extend(hex::written(frame));
        input.push(b'\n');
    }
    let mut least = [f64::MAX; 2];
    for _ in 0..batches(RUNS) {
        let outputs = [ours, theirs].map(|words| through(words, &input));
        let [ours, theirs] = outputs.map(|output| output.expect("the program runs"));
        assert!(ours.0 == theirs.0, "{what}: the outputs differ");
        least = [least[0].min(ours.1), least[1].min(theirs.1)];
    }
    let [(frames_ours, bytes_ours), (frames_theirs, bytes_theirs)] = least.map(|seconds| {
        (
            frames.len() as f64 / seconds,
            input.len() as f64 / seconds / 1e6,
        )
    });
    println!(
        "  {:<32} {frames_ours:>10.0} {bytes_ours:>6.0}  {frames_theirs:>10.0} {bytes_theirs:>6.0}  {:>5.2}",
        format!("{what}, {}", frames.len()),
        least[0] / least[1]
    );
}

/// The output, and the seconds that it took.
fn through(words: &[String], input: &[u8]) -> io::Result<(Vec<u8>, f64)> {
    let start = Instant::now();
    let mut child = Command::new(&words[0])
        .args(&words[1..])
        .stdin(Stdio::piped())
        .stdout(Stdio::piped())
        .spawn()?;
    let mut to = child.stdin.take().expect("a pipe");
    let mut from = child.stdout.take().expect("a pipe");
    let mut output = Vec::new();
    thread::scope(|scope| {
        let writer = scope.spawn(move || to.write_all(input));
        from.read_to_end(&mut output)?;
        writer.join().expect("the writer ends")
    })?;
    child.wait()?;
    Ok((output, start.elapsed().as_secs_f64()))
}
