//! Any bytes through the library: frames of every sort that are changed a little or much, and bytes at random, into places
//! of every size; any lists through its step; and any hulls and transform through its question whether they are apart. Round `r`
//! of a seed depends on these two numbers alone.

use crate::apart;
use crate::codec::{
    CACHE, CALL, CAPACITY, FLIP, HULL_A, LONGEST_ANSWER, RETIRED, ROOT, STATUS, TRANSFORM,
    UNIT_AND_SIZES,
};
use crate::library::{Library, Room};
use crate::sorts::Frames;
use crate::steps::{self, any::wild, room};
use crate::{hex, wanted, Frame};
use cases::Numbers;
use records::{PAIR_BYTES, STATUS_BYTE};
use std::time::{Duration, Instant};

/// Frames that are changed.
const FRAMES: usize = 4000;

/// Longer ones are left to the other runs, so that there are more rounds.
const LONGEST: usize = 10_000;

/// One round of so many is a step, and one a question.
const OTHER_ROUNDS: u64 = 8;

/// How many differences are shown, and how often the run says how far it is.
const SHOWN: u64 = 5;
const BETWEEN: Duration = Duration::from_secs(10);

pub struct Fuzz {
    seed: u64,
    frames: Vec<Vec<u8>>,
}

/// What came of the rounds.
#[derive(Debug, Clone, Copy, Default, PartialEq, Eq)]
pub struct Fuzzed {
    pub rounds: u64,
    pub different: u64,
    roots_and_pairs: u64,
    faults: u64,
    accepted: u64,
    /// Of the accepted ones.
    marked: u64,
    refused: u64,
    /// Of the refused ones by 17.
    unlike_units: u64,
    /// Into places that are too small.
    small: u64,
    /// Without an answer, since the Rust text would be needed.
    untold: u64,
    steps: u64,
    /// Of the steps those refused by 21, the others' pairs, and of these the accepted ones.
    small_steps: u64,
    pairs: u64,
    accepted_pairs: u64,
    questions: u64,
    /// Of the questions those that are refused, and those with a yes.
    refused_questions: u64,
    yes: u64,
}

impl Fuzz {
    pub fn new(seed: u64) -> Fuzz {
        let all = Frames::new(seed);
        let frames = all.iter().filter_map(|(_, frame)| match frame {
            Frame::Bytes(bytes) if bytes.len() <= LONGEST => Some(bytes),
            _ => None,
        });
        Fuzz {
            seed,
            frames: frames.take(FRAMES).collect(),
        }
    }

    /// From this round on, until the time is over or so many rounds were made.
    pub fn run(
        &self,
        library: &mut impl Library,
        from: u64,
        rounds: u64,
        time: Duration,
    ) -> Fuzzed {
        let start = Instant::now();
        let mut said = start;
        let mut fuzzed = Fuzzed::default();
        for round in from..from.saturating_add(rounds) {
            if start.elapsed() > time {
                break;
            }
            self.round(round, library, &mut fuzzed);
            if said.elapsed() > BETWEEN {
                said = Instant::now();
                println!("  {:.0} s: {fuzzed}", start.elapsed().as_secs_f64());
            }
        }
        println!("seed {}, from round {from}: {fuzzed}", self.seed);
        fuzzed
    }

    fn round(&self, round: u64, library: &mut impl Library, fuzzed: &mut Fuzzed) {
        let base = Numbers::new(self.seed).word();
        let mut numbers = Numbers::new(base.wrapping_add(round));
        let n = &mut numbers;
        match round % OTHER_ROUNDS {
            3 => return self.question(round, n, library, fuzzed),
            7 => return self.step(round, n, library, fuzzed),
            _ => {}
        }
        let frame = self.frame(n);
        let size = match n.below(16) {
            0 => n.below(LONGEST_ANSWER),
            1 => LONGEST_ANSWER - 1,
            2 | 3 => LONGEST_ANSWER + n.below(97),
            _ => LONGEST_ANSWER,
        };
        let wanted = if size < LONGEST_ANSWER {
            Some(vec![])
        } else {
            wanted::to_frame(&frame)
        };
        let mut room = Room::new(size);
        let came = room.ask(&frame, library);
        fuzzed.add(wanted.as_deref());
        let right = match (&came, &wanted) {
            (Ok(came), Some(wanted)) => came == wanted,
            (came, None) => came.is_ok(),
            _ => false,
        };
        if !right {
            fuzzed.different += 1;
            if fuzzed.different <= SHOWN {
                let text = |bytes: &[u8]| String::from_utf8(hex::written(bytes)).expect("digits");
                eprintln!(
                    "different: seed {}, round {round}, {size} bytes of room",
                    self.seed
                );
                eprintln!(
                    "  wanted {}",
                    wanted.map_or("any".into(), |bytes| text(&bytes))
                );
                eprintln!("  came   {}", came.map_or_else(str::to_string, text));
                eprintln!("  frame  {}", text(&frame));
            }
        }
    }

    /// A step over any lists.
    fn step(&self, round: u64, n: &mut Numbers, library: &mut impl Library, fuzzed: &mut Fuzzed) {
        let given = wild(n);
        let wanted = steps::wanted::of(&given);
        let (came, after) = room::Room::new(&given).ask(&given, library);
        fuzzed.add_step(&wanted);
        if let Some(what) = steps::differs(&given, &wanted, &came, &after) {
            fuzzed.different += 1;
            if fuzzed.different <= SHOWN {
                eprintln!(
                    "different: seed {}, round {round}, a step: {what}",
                    self.seed
                );
            }
        }
    }

    /// A question about any hulls in any places.
    fn question(
        &self,
        round: u64,
        n: &mut Numbers,
        library: &mut impl Library,
        fuzzed: &mut Fuzzed,
    ) {
        let given = apart::any::wild(n);
        let question = given.call().question();
        let told = apart::wanted::of(&question);
        let came = library.apart(&question);
        let call = library.collide(&question.call());
        fuzzed.add_question(told.as_ref());
        if let Some(what) = apart::differs(&question, told.as_ref(), came, &call) {
            fuzzed.different += 1;
            if fuzzed.different <= SHOWN {
                eprintln!(
                    "different: seed {}, round {round}, a question: {what}",
                    self.seed
                );
            }
        }
    }

    /// One of the frames with one to four changes, or bytes at random.
    fn frame(&self, n: &mut Numbers) -> Vec<u8> {
        if n.below(32) == 0 {
            return random(n);
        }
        let mut frame = self.any(n).clone();
        for _ in 0..[1, 1, 2, 4][n.below(4)] {
            if n.below(8) == 0 {
                self.change_length(&mut frame, n);
            } else {
                change(&mut frame, n);
            }
        }
        frame
    }

    fn any(&self, n: &mut Numbers) -> &Vec<u8> {
        &self.frames[n.below(self.frames.len())]
    }

    /// Cut, longer, shorter, or joined to another.
    fn change_length(&self, frame: &mut Vec<u8>, n: &mut Numbers) {
        let place = n.below(frame.len() + 1);
        match n.below(4) {
            0 => frame.truncate(place),
            1 => {
                let more: Vec<u8> = (0..1 + n.below(9)).map(|_| n.word() as u8).collect();
                frame.splice(place..place, more).for_each(drop);
            }
            2 => {
                let until = frame.len().min(place + 1 + n.below(9));
                frame.drain(place..until);
            }
            _ => {
                let other = self.any(n);
                let from = n.below(other.len() + 1);
                frame.truncate(place);
                frame.extend(&other[from..]);
            }
        }
    }
}

/// A bit, a byte or a number of any sort, anywhere; or in the head of a call its capacity, its cache, its transform, or the
/// unit or the sizes of its first hull.
fn change(frame: &mut [u8], n: &mut Numbers) {
    let place = n.below(frame.len() + 1);
    let float = n.float().to_bits().to_be_bytes();
    match n.below(10) {
        0..=2 => {
            if let Some(byte) = frame.get_mut(place) {
                *byte ^= 1 << n.below(8);
            }
        }
        3 => put(frame, place, &[n.word() as u8]),
        4 => put(frame, place, &float),
        5 => put(frame, CAPACITY, &(n.below(9) as i32 - 2).to_be_bytes()),
        6 => put(frame, CACHE + n.below(8), &[n.below(12) as u8]),
        7 => put(frame, TRANSFORM + 4 * n.below(7), &float),
        8 => put(frame, HULL_A, &(n.unit().per_metre() as u16).to_be_bytes()),
        _ => put(
            frame,
            HULL_A + n.below(UNIT_AND_SIZES),
            &[n.below(130) as u8],
        ),
    }
}

/// A kind and up to 2,000 bytes, or any bytes.
fn random(n: &mut Numbers) -> Vec<u8> {
    let most = [6, 60, 2000][n.below(3)];
    let mut frame: Vec<u8> = (0..n.below(most)).map(|_| n.word() as u8).collect();
    if let (Some(first), true) = (frame.first_mut(), n.below(4) > 0) {
        *first = [ROOT, FLIP, CALL][n.below(3)];
    }
    frame
}

/// Where the frame reaches so far.
fn put(frame: &mut [u8], place: usize, bytes: &[u8]) {
    if let Some(to) = frame.get_mut(place..place + bytes.len()) {
        to.copy_from_slice(bytes);
    }
}

impl Fuzzed {
    fn add(&mut self, wanted: Option<&[u8]>) {
        self.rounds += 1;
        let count = match wanted {
            None => &mut self.untold,
            Some([]) => &mut self.small,
            Some([0xff, ..]) => &mut self.faults,
            Some(answer) if answer[0] != CALL + 0x80 => &mut self.roots_and_pairs,
            Some(answer) if answer[STATUS] == 0 => {
                self.marked += u64::from(answer[RETIRED]);
                &mut self.accepted
            }
            Some(answer) => {
                self.unlike_units += u64::from(answer[STATUS] == 17);
                &mut self.refused
            }
        };
        *count += 1;
    }

    fn add_question(&mut self, told: Option<&apart::wanted::Told>) {
        self.rounds += 1;
        self.questions += 1;
        match told.map(|told| told.answer.accepted()) {
            None => self.untold += 1,
            Some(Err(_)) => self.refused_questions += 1,
            Some(Ok(yes)) => self.yes += u64::from(yes),
        }
    }

    fn add_step(&mut self, wanted: &steps::wanted::Written) {
        self.rounds += 1;
        self.steps += 1;
        if wanted.step.status != 0 {
            self.small_steps += 1;
            return;
        }
        self.pairs += wanted.told.len() as u64;
        let bytes = wanted.bytes.chunks_exact(PAIR_BYTES).zip(&wanted.told);
        let accepted = bytes.filter(|(bytes, &told)| told && bytes[STATUS_BYTE] == 0);
        self.accepted_pairs += accepted.count() as u64;
    }
}

impl std::fmt::Display for Fuzzed {
    fn fmt(&self, f: &mut std::fmt::Formatter) -> std::fmt::Result {
        let Fuzzed {
            rounds,
            different,
            roots_and_pairs,
            faults,
            accepted,
            marked,
            refused,
            unlike_units,
            small,
            untold,
            steps,
            small_steps,
            pairs,
            accepted_pairs,
            questions,
            refused_questions,
            yes,
        } = self;
        write!(
            f,
            "{rounds} rounds, {different} different; roots and pairs {roots_and_pairs}, calls accepted {accepted}, {marked} of \
             them of a retired type, refused {refused}, {unlike_units} of them for unlike units, faults {faults}, too little room \
             {small}, without an answer to hold it to {untold}; steps {steps}, {small_steps} of them without room, pairs of the \
             others {pairs}, {accepted_pairs} of them accepted; questions {questions}, {refused_questions} of them refused, {yes} \
             a yes"
        )
    }
}
