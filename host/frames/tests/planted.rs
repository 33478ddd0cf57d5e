//! The comparisons tell a fault: each of a program, and some that only a library can have.
#![cfg(rust_text)]

use cases::calls::{Answer, Call, Question};
use frames::codec::LONGEST_ANSWER;
use frames::fuzz::Fuzz;
use frames::library::{self, Library};
use frames::sorts::Frames;
use frames::steps::{self, Lent};
use frames::{apart, faults, hex, program, wanted};
use records::{Apart, Step};
use std::process::Command;
use std::time::Duration;

const COUNT: usize = 4000;
const ROUNDS: u64 = 4000;
const STEPS: usize = 300;
const PAIRS: usize = 4000;

fn plain(fault: Option<&str>) -> Command {
    let mut command = Command::new(env!("CARGO_BIN_EXE_plain"));
    command.args(fault);
    command
}

/// How many frames of a program's run are wrong, and whether its ends of lines are right.
fn run(fault: Option<&str>) -> (u64, bool) {
    let verdict = program::run(&Frames::new(1), COUNT, &mut plain(fault));
    let ends = program::ends(&mut plain(fault));
    let started = "the plain program runs";
    (verdict.expect(started).different, ends.expect(started))
}

#[test]
fn a_right_program_is_right() {
    assert_eq!(run(None), (0, true));
}

#[test]
fn each_fault_of_a_program_is_told() {
    for (name, _) in faults::all() {
        let (different, _) = run(Some(name));
        assert!(different > 0, "{name}");
    }
}

#[test]
fn a_program_that_ends_early_is_told() {
    let verdict = program::run(&Frames::new(1), COUNT, &mut Command::new("true"));
    assert!(verdict.is_ok_and(|verdict| verdict.different > 0));
}

/// A stand-in for the library, right but for one thing.
struct StandIn {
    /// Answers as a program with this fault does.
    fault: &'static str,
    /// Writes into a place that is too small.
    crowds: bool,
    /// Writes one byte more than an answer can have.
    overruns: bool,
    /// Says one byte too few.
    shortens: bool,
    /// Leaves the hit of a call by records as it was.
    keeps_hit: bool,
    /// Sets no mark in a call by records.
    unmarked: bool,
    /// Has place 0 in every point of a call by records.
    unplaced: bool,
    /// Takes hull A's unit for hull B's in a call by records.
    one_unit: bool,
    /// Says of every pair of edges in a call by records that it is 0 apart.
    edges_touch: bool,
    /// Makes a step so.
    steps: faults::steps::Steps,
    /// Answers a question so.
    questions: faults::apart::Questions,
}

const RIGHT: StandIn = StandIn {
    fault: "",
    crowds: false,
    overruns: false,
    shortens: false,
    keeps_hit: false,
    unmarked: false,
    unplaced: false,
    one_unit: false,
    edges_touch: false,
    steps: faults::steps::right,
    questions: faults::apart::right,
};

impl Library for StandIn {
    fn answer(&mut self, frame: &[u8], answer: &mut [u8]) -> usize {
        if answer.len() < LONGEST_ANSWER && !self.crowds {
            return 0;
        }
        let wanted = match faults::named(self.fault) {
            Some(answers) => answers(&hex::written(frame)),
            None => wanted::to_frame(frame),
        };
        let wanted = wanted.expect("the Rust text is at hand");
        let length = wanted.len().min(answer.len());
        answer[..length].copy_from_slice(&wanted[..length]);
        if self.overruns && answer.len() > LONGEST_ANSWER {
            answer[LONGEST_ANSWER] = 0;
        }
        length - usize::from(self.shortens)
    }

    fn collide(&mut self, call: &Call) -> Answer {
        let mut call = *call;
        if self.one_unit {
            call.b.size.unit = call.a.size.unit;
        }
        let mut answer = call.wanted();
        if self.keeps_hit {
            answer.cache.hit = call.cache.hit;
        }
        if self.edges_touch && answer.cache.kind == 4 {
            answer.cache.separation = 0;
        }
        if self.unmarked {
            answer.outcome.retired = 0;
        }
        if self.unplaced {
            for point in &mut answer.outcome.contact.points {
                point.place = 0;
            }
        }
        answer
    }

    fn apart(&mut self, question: &Question) -> Apart {
        (self.questions)(question)
    }

    fn step(&mut self, lists: &mut Lent) -> Step {
        (self.steps)(lists)
    }
}

fn fuzzed(mut library: StandIn) -> u64 {
    let time = Duration::from_secs(600);
    Fuzz::new(1).run(&mut library, 0, ROUNDS, time).different
}

fn held(mut library: StandIn) -> u64 {
    library::run(&Frames::new(1), COUNT, &mut library).different
}

/// How many steps differ.
fn stepped(mut library: StandIn) -> u64 {
    steps::run(1, STEPS, &mut library).different
}

/// How many questions differ.
fn asked(mut library: StandIn) -> u64 {
    apart::run(1, PAIRS, &mut library).different
}

#[test]
fn a_right_library_is_right() {
    let different = [fuzzed(RIGHT), held(RIGHT), stepped(RIGHT), asked(RIGHT)];
    assert_eq!(different, [0; 4]);
}

#[test]
fn faults_of_a_question_are_told() {
    for (fault, questions) in faults::apart::FAULTS {
        assert!(asked(StandIn { questions, ..RIGHT }) > 0, "{fault}");
    }
    for fault in [
        "A's faces left out",
        "B's faces left out",
        "pairs of edges left out",
        "2 before 1",
        "17 before 2",
        "3 before 17",
        "17 not given",
        "a yes on a refusal",
    ] {
        let mut all = faults::apart::FAULTS.into_iter();
        let (_, questions) = all.find(|&(name, _)| name == fault).expect(fault);
        assert!(fuzzed(StandIn { questions, ..RIGHT }) > 0, "{fault}");
    }
}

/// A call that says otherwise than the question.
#[test]
fn a_call_that_contradicts_is_told() {
    let edges_touch = true;
    let different = asked(StandIn {
        edges_touch,
        ..RIGHT
    });
    assert!(different > 0);
}

#[test]
fn faults_of_a_step_are_told() {
    for (fault, steps) in faults::steps::FAULTS {
        assert!(stepped(StandIn { steps, ..RIGHT }) > 0, "{fault}");
    }
    for fault in [
        "what stood in judged believed",
        "a hull judged by another's numbers",
        "a neighbour's cache read",
        "points of refused pairs counted",
        "a hull number that is none taken for the last",
        "hulls noted where there is no room for pairs",
        "as many pairs as there is room for",
        "half a pair answered",
    ] {
        let mut all = faults::steps::FAULTS.into_iter();
        let (_, steps) = all.find(|&(name, _)| name == fault).expect(fault);
        assert!(fuzzed(StandIn { steps, ..RIGHT }) > 0, "{fault}");
    }
}

#[test]
fn faults_of_a_library_are_told() {
    for fault in [
        "low byte first in a root",
        "the status one higher",
        "a NaN with other bits",
        "a point doubled",
        "a point above the count not cleared",
        "the mark never set",
        "the mark on a refusal",
        "the mark with a capacity below 4",
        "type 5 marked",
        "type 9 marked",
        "type 8 not marked",
        "a retired type kept in the next cache",
        "the second place as the list stands after the first pick",
        "places always 0, 1, 2, ..",
        "places of a face of B not carried",
        "an edge point at place 1",
        "an unused place 0",
        "the places behind the mark",
        "a place doubled",
        "the scalar of a quaternion first",
        "any owner flipped",
        "H9 not tested",
        "half-edges reached by next alone",
        "slop left at unit 1",
        "slop and speculative distance left at unit 1",
        "4096 left at unit 1 for coordinates",
        "the unit not in H1",
        "17 not given",
    ] {
        let library = || StandIn { fault, ..RIGHT };
        assert!(held(library()) > 0 && fuzzed(library()) > 0, "{fault}");
    }
    for fault in [
        "H9 of hull B not tested",
        "V - H/2 + F alone",
        "half-edges reached alone",
        "refusal 1 where B breaks H9",
        "H9 after the transform",
        "H9 with a capacity below 4",
        "slop multiplied twice",
        "starting support value left at unit 1",
        "8192 left at unit 1",
        "1/1024 left at unit 1",
        "4096 left at unit 1 for the transform",
        "A's unit used for B's rules",
        "17 after 3",
        "17 with a capacity below 4",
    ] {
        assert!(held(StandIn { fault, ..RIGHT }) > 0, "{fault}");
    }
    let shortens = || StandIn {
        shortens: true,
        ..RIGHT
    };
    assert!(held(shortens()) > 0 && fuzzed(shortens()) > 0);
}

#[test]
fn bytes_outside_the_answer_are_told() {
    let (crowds, overruns) = (true, true);
    assert!(fuzzed(StandIn { crowds, ..RIGHT }) > 0);
    assert!(fuzzed(StandIn { overruns, ..RIGHT }) > 0);
}

#[test]
fn a_call_by_records_is_told() {
    let (keeps_hit, unmarked, unplaced, one_unit) = (true, true, true, true);
    assert!(held(StandIn { keeps_hit, ..RIGHT }) > 0);
    assert!(held(StandIn { unmarked, ..RIGHT }) > 0);
    assert!(held(StandIn { unplaced, ..RIGHT }) > 0);
    assert!(held(StandIn { one_unit, ..RIGHT }) > 0);
}
