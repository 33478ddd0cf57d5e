//! Answers held to those that document 01 wants: what differs is counted and shown, and what was met is counted.

use crate::mix::Mix;
use crate::sorts::{Frames, Place};
use crate::{hex, Frame};
use std::time::{Duration, Instant};

/// How many differences are shown.
const SHOWN: u64 = 5;

/// How often a run says how far it is.
const BETWEEN: Duration = Duration::from_secs(5);

pub struct Held<'a> {
    frames: &'a Frames,
    mix: Mix,
    wanted: usize,
    sent: usize,
    compared: usize,
    different: u64,
    start: Instant,
    said: Instant,
}

impl<'a> Held<'a> {
    /// Of so many frames.
    pub fn new(frames: &'a Frames, count: usize) -> Self {
        let now = Instant::now();
        Held {
            frames,
            mix: Mix::new(frames),
            wanted: count,
            sent: 0,
            compared: 0,
            different: 0,
            start: now,
            said: now,
        }
    }

    /// Whether no more frames are to be sent.
    pub fn all_sent(&self) -> bool {
        self.sent == self.wanted
    }

    /// A frame and the answer that is wanted, where it can be told: then the frame is to be sent.
    pub fn tell(
        &mut self,
        place: Place,
        frame: &Frame,
        wanted: Option<Vec<u8>>,
    ) -> Option<Vec<u8>> {
        let sort = self.frames.sort_of(place.batch);
        self.mix.add(sort, frame, wanted.as_deref());
        self.sent += usize::from(wanted.is_some());
        wanted
    }

    /// The answer that came: the bytes, or the characters of a line. Shows the frame where it is not the wanted one.
    pub fn came(&mut self, place: Place, wanted: &[u8], came: Came) {
        self.compared += 1;
        let equal = match came {
            Came::Bytes(bytes) => bytes == wanted,
            Came::Line(line) => line == hex::written(wanted),
        };
        if !equal {
            self.different += 1;
            if self.different <= SHOWN {
                self.show(place, wanted, came);
            }
        }
        if self.said.elapsed() > BETWEEN {
            self.said = Instant::now();
            println!(
                "  {} of {} frames, {} different",
                self.compared, self.wanted, self.different
            );
        }
    }

    /// The frame, the answer that is wanted and the one that came.
    pub fn show(&self, place: Place, wanted: &[u8], came: Came) {
        let frame = &self.frames.batch(place.batch)[place.number];
        let name = self.frames.sorts()[self.frames.sort_of(place.batch)].name;
        let Place { batch, number } = place;
        let seed = self.frames.seed();
        let came = match came {
            Came::Bytes(bytes) => text(&hex::written(bytes)),
            Came::Line(line) => text(line),
        };
        eprintln!("different: seed {seed}, batch {batch}, frame {number}, of the sort '{name}'");
        eprintln!("  wanted {}", text(&hex::written(wanted)));
        eprintln!("  came   {came}");
        eprintln!("  frame  {}", text(&frame.line()));
    }

    /// Anything else that is wrong with the run.
    pub fn wrong(&mut self, what: &str) {
        self.different += 1;
        eprintln!("wrong: {what}");
    }

    /// Prints what was met and what differed.
    pub fn report(&self, program: bool) -> Verdict {
        let met = self.mix.report(self.frames, program);
        let seconds = self.start.elapsed().as_secs_f64();
        println!(
            "{} frames of seed {} compared in {seconds:.1} s, {} different",
            self.compared,
            self.frames.seed(),
            self.different
        );
        Verdict {
            different: self.different,
            met: met && self.compared == self.wanted,
        }
    }
}

/// How many answers differ, and whether all that must be was met.
#[derive(Debug, Clone, Copy, PartialEq, Eq)]
pub struct Verdict {
    pub different: u64,
    pub met: bool,
}

impl Verdict {
    pub fn good(self) -> bool {
        self.different == 0 && self.met
    }
}

/// What a program or a library answers.
#[derive(Clone, Copy)]
pub enum Came<'a> {
    Bytes(&'a [u8]),
    Line(&'a [u8]),
}

/// With every byte that is no plain character escaped.
fn text(line: &[u8]) -> String {
    line.escape_ascii().to_string()
}
