//! What the runs share beside their cases: the proved answers, and the records of single layers beside the text's.

use cases::calls::{Answer, Call, Question};
use cases::convert;
use cases::shapes::Shape;
use contact::{Apart, Hull, HullLists, Rule, Step};
use frames::library::Library;
use frames::steps::Lent;
use oracle::math_functions::mul_sub;
use probes::{Accepted, ClipVertex, Vec3};

#[cfg(rust_text)]
pub mod corners;
#[cfg(rust_text)]
pub mod searches;

/// The shape as the library has accepted it.
pub fn accepted(shape: &Shape) -> Accepted<'_> {
    Accepted::new(&shape.numbers, &shape.links, shape.size).expect("the hull is good")
}

/// The images of candidates, as the loop of hulls.rs makes them; it stands inside `build_face_a_contact` and is transcribed
/// here over the readings.
pub fn images(candidates: &[ClipVertex], normal: Vec3) -> Vec<ClipVertex> {
    let image = |clip_point: &ClipVertex| {
        let position = convert::vector(clip_point.position);
        let half = 0.5 * clip_point.separation;
        ClipVertex {
            position: convert::ours(mul_sub(position, half, convert::vector(normal))),
            ..*clip_point
        }
    };
    candidates.iter().map(image).collect()
}

/// The proved answer to a call.
#[inline]
pub fn ours(call: &Call) -> Answer {
    let mut cache = call.cache;
    let (a, b) = (call.a.into(), call.b.into());
    let outcome = contact::collide_with(call.capacity, &a, &b, call.transform, &mut cache);
    Answer { outcome, cache }
}

/// The proved answer to a question.
#[inline]
pub fn apart(question: &Question) -> Apart {
    let (a, b) = (question.a.into(), question.b.into());
    contact::apart_record(&a, &b, question.transform)
}

/// The number of the first rule that a hull breaks, 0 if none, by the proved validator.
#[inline]
pub fn broken_rule(hull: HullLists) -> u8 {
    Hull::from(hull).check().map_or_else(Rule::number, |()| 0)
}

/// The proved library that hosts link.
pub struct Proved;

impl Library for Proved {
    fn answer(&mut self, frame: &[u8], answer: &mut [u8]) -> usize {
        contact::answer_into(frame, answer)
    }

    fn collide(&mut self, call: &Call) -> Answer {
        ours(call)
    }

    fn apart(&mut self, question: &Question) -> Apart {
        apart(question)
    }

    fn step(&mut self, lists: &mut Lent) -> Step {
        contact::step_lists(
            lists.numbers,
            lists.links,
            lists.hulls,
            lists.pairs,
            lists.transforms,
            lists.judged,
            lists.caches,
            lists.floats,
            lists.bytes,
        )
    }
}
