//! The library that hosts link, held to the answers that document 01 wants.

use crate::codec::{self, Asked, LONGEST_ANSWER};
use crate::held::{Came, Held, Verdict};
use crate::sorts::Frames;
use crate::steps::Lent;
use crate::wanted;
use cases::calls::{Answer, Call, Question};
use records::{Apart, Step};

/// The exported functions that answer a call, a question, a frame and a step, or stand-ins for them.
pub trait Library {
    /// The answer to a frame in bytes, written to `answer`: how many bytes it has. Where `answer` has fewer than
    /// [`LONGEST_ANSWER`], that is 0 and nothing is written.
    fn answer(&mut self, frame: &[u8], answer: &mut [u8]) -> usize;

    fn collide(&mut self, call: &Call) -> Answer;

    /// Whether the two hulls are apart.
    fn apart(&mut self, question: &Question) -> Apart;

    /// One step over these lists.
    fn step(&mut self, lists: &mut Lent) -> Step;
}

/// So many frames in bytes, and those that are calls through `collide` as well.
pub fn run(frames: &Frames, count: usize, library: &mut impl Library) -> Verdict {
    let mut held = Held::new(frames, count);
    for (place, frame) in frames.iter() {
        if held.all_sent() {
            break;
        }
        let Some(bytes) = frame.bytes() else {
            continue;
        };
        let Some(wanted) = held.tell(place, &frame, wanted::to_frame(bytes)) else {
            continue;
        };
        let mut room = Room::new(LONGEST_ANSWER);
        match room.ask(bytes, library) {
            Ok(answer) => held.came(place, &wanted, Came::Bytes(answer)),
            Err(what) => held.wrong(what),
        }
        if let Ok(Asked::Call(given)) = codec::decode(bytes) {
            let answer = codec::call_answer(&library.collide(&given.call()));
            if answer != wanted {
                held.wrong("the call by records answers otherwise than the frame");
                held.show(place, &wanted, Came::Bytes(&answer));
            }
        }
    }
    held.report(false)
}

/// So many bytes for an answer, with others before and after them that are to stay.
pub struct Room {
    bytes: Vec<u8>,
    size: usize,
}

/// How many bytes are watched on either side.
const WATCHED: usize = 64;

/// What every byte is before a call; no answer begins with it.
const UNTOUCHED: u8 = 0x5a;

impl Room {
    pub fn new(size: usize) -> Room {
        Room {
            bytes: vec![UNTOUCHED; size + 2 * WATCHED],
            size,
        }
    }

    /// The library's answer; or what is wrong, where it wrote to a byte that is not of the answer or says that it wrote
    /// more than there is room for.
    pub fn ask(&mut self, frame: &[u8], library: &mut impl Library) -> Result<&[u8], &'static str> {
        self.bytes.fill(UNTOUCHED);
        let end = WATCHED + self.size;
        let length = library.answer(frame, &mut self.bytes[WATCHED..end]);
        let most = if self.size < LONGEST_ANSWER {
            0
        } else {
            LONGEST_ANSWER
        };
        if length > most {
            return Err("the answer is longer than its place");
        }
        let (before, rest) = self.bytes.split_at(WATCHED);
        let (answer, after) = rest.split_at(length);
        if before.iter().chain(after).any(|&byte| byte != UNTOUCHED) {
            return Err("a byte outside the answer was written");
        }
        Ok(answer)
    }
}
