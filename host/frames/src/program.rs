//! A program that reads frames from its standard input and writes answers to its standard output, held to the answers
//! that document 01 wants. One thread writes to it and another reads from it, so that neither waits for the other
//! whatever the program keeps back.

use crate::held::{Came, Held, Verdict};
use crate::sorts::{Frames, Place};
use crate::wanted;
use std::collections::VecDeque;
use std::io::{self, BufRead, BufReader, BufWriter, Read, Write};
use std::process::{Child, ChildStdin, ChildStdout, Command, Stdio};
use std::sync::mpsc::{channel, sync_channel, Receiver};
use std::thread::{self, JoinHandle};

/// Frames that are made and not yet written.
const AHEAD: usize = 256;

/// What is sent and not yet answered.
type Waiting = VecDeque<(Place, Vec<u8>)>;

/// So many frames, the last without its line end.
pub fn run(frames: &Frames, count: usize, command: &mut Command) -> io::Result<Verdict> {
    let mut child = start(command)?;
    let (to_writer, lines) = sync_channel(AHEAD);
    let writer = write_from(lines, child.stdin.take().expect("a pipe"));
    let (answers, reader) = read_all(child.stdout.take().expect("a pipe"));

    let mut held = Held::new(frames, count);
    let mut waiting = Waiting::new();
    // The end of the line before, so that the last has none.
    let mut before: &[u8] = b"";
    for (place, frame) in frames.iter() {
        if held.all_sent() {
            break;
        }
        let line = frame.line();
        let Some(wanted) = held.tell(place, &frame, wanted::to_line(&line)) else {
            continue;
        };
        if to_writer.send([before, &line].concat()).is_err() {
            break;
        }
        before = b"\n";
        waiting.push_back((place, wanted));
        for answer in answers.try_iter() {
            take(&mut held, &mut waiting, &answer);
        }
    }
    drop(to_writer);
    for answer in answers.iter() {
        take(&mut held, &mut waiting, &answer);
    }
    if !waiting.is_empty() {
        held.wrong(&format!("{} frames were not answered", waiting.len()));
    }
    // A program that ends early breaks the pipe; that its answers are missing says so already.
    let _ = writer.join().expect("the writer ends");
    reader.join().expect("the reader ends")?;
    let status = child.wait()?;
    if !status.success() {
        held.wrong(&format!("the program ended with {status}"));
    }
    Ok(held.report(true))
}

fn start(command: &mut Command) -> io::Result<Child> {
    command.stdin(Stdio::piped()).stdout(Stdio::piped()).spawn()
}

/// Ends the program's input when no more lines come.
fn write_from(lines: Receiver<Vec<u8>>, to: ChildStdin) -> JoinHandle<io::Result<()>> {
    thread::spawn(move || {
        let mut to = BufWriter::with_capacity(1 << 16, to);
        for line in lines {
            to.write_all(&line)?;
        }
        to.flush()
    })
}

/// Every line with its end, where it has one.
fn read_all(from: ChildStdout) -> (Receiver<Vec<u8>>, JoinHandle<io::Result<()>>) {
    let (send, answers) = channel();
    let reader = thread::spawn(move || {
        let mut from = BufReader::with_capacity(1 << 16, from);
        loop {
            let mut line = Vec::new();
            if from.read_until(b'\n', &mut line)? == 0 || send.send(line).is_err() {
                return Ok(());
            }
        }
    });
    (answers, reader)
}

fn take(held: &mut Held, waiting: &mut Waiting, answer: &[u8]) {
    let (Some(line), Some((place, wanted))) = (answer.strip_suffix(b"\n"), waiting.pop_front())
    else {
        held.wrong("an answer without its line end, or more answers than frames");
        return;
    };
    held.came(place, &wanted, Came::Line(line));
}

/// Whole inputs about the ends of lines: whether each output is the wanted one to the last byte.
pub fn ends(command: &mut Command) -> io::Result<bool> {
    let root = "1040800000";
    let inputs = [
        String::new(),
        "\n".into(),
        "\n\n".into(),
        root.into(),
        format!("{root}\n"),
        format!("{root}\n\n"),
        format!("\n{root}"),
        format!("{root}\n{root}"),
        format!("{root}\r\n{root}\n"),
    ];
    let mut good = true;
    for input in &inputs {
        let output = whole(command, input.as_bytes())?;
        let wanted = wanted::to_input(input.as_bytes()).expect("no call is among them");
        if output != wanted {
            let [input, output, wanted] =
                [input.as_bytes(), &output, &wanted].map(<[u8]>::escape_ascii);
            eprintln!("different: the input '{input}' gives '{output}', not '{wanted}'");
            good = false;
        }
    }
    println!(
        "{} whole inputs about the ends of lines: {}",
        inputs.len(),
        if good { "0 different" } else { "some differ" }
    );
    Ok(good)
}

/// All that the program writes.
fn whole(command: &mut Command, input: &[u8]) -> io::Result<Vec<u8>> {
    let mut child = start(command)?;
    let mut to = child.stdin.take().expect("a pipe");
    to.write_all(input)?;
    drop(to);
    let mut output = Vec::new();
    child
        .stdout
        .take()
        .expect("a pipe")
        .read_to_end(&mut output)?;
    child.wait()?;
    Ok(output)
}
