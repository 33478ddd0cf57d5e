//! The question whether two hulls are apart, held to its second writing: every axis of the Rust text's search, then the largest
//! separation. Each answer is also held to the call on the same hulls with an empty cache, which ends apart exactly where it is a
//! yes. Pair `p` of a seed depends on these two numbers alone.

use crate::held::Verdict;
use crate::library::Library;
use crate::requests;
use cases::calls::{Answer, Question};
use cases::Numbers;
use met::Met;
use records::{Apart, SatCache, Unit};
use std::time::{Duration, Instant};
use wanted::Told;

pub mod any;
#[cfg(rust_text)]
mod limits;
mod met;
pub mod wanted;

/// How many differences are shown, and how often a run says how far it is.
const SHOWN: u64 = 5;
const BETWEEN: Duration = Duration::from_secs(5);

/// Document 02's examples, and so many pairs of hulls.
pub fn run(seed: u64, count: usize, library: &mut impl Library) -> Verdict {
    let start = Instant::now();
    let mut said = start;
    let base = Numbers::new(seed).word();
    let (mut met, mut different) = (Met::default(), 0);
    for example in requests::apart() {
        let (came, wanted) = (
            library.apart(&example.given().call().question()),
            example.answer,
        );
        if came != wanted {
            different += 1;
            eprintln!(
                "different: {}: {came:?} in place of {wanted:?}",
                example.words
            );
        }
    }
    for pair in 0..count {
        let given = any::given(&mut Numbers::new(base.wrapping_add(pair as u64)));
        let question = given.call().question();
        let told = wanted::of(&question);
        let came = library.apart(&question);
        let call = library.collide(&question.call());
        met.add(&question, told.as_ref(), &call);
        if let Some(what) = differs(&question, told.as_ref(), came, &call) {
            different += 1;
            if different <= SHOWN {
                eprintln!("different: pair {pair} of seed {seed}: {what}");
            }
        }
        if said.elapsed() > BETWEEN {
            said = Instant::now();
            println!("  {} of {count} pairs, {different} different", pair + 1);
        }
    }
    let met = met.report(count);
    println!(
        "document 02's examples and {count} pairs of seed {seed} asked about in {:.1} s, {different} different",
        start.elapsed().as_secs_f64()
    );
    Verdict { different, met }
}

/// What differs, in words: the first thing that does. An answer that cannot be told is held to the call alone.
pub fn differs(
    question: &Question,
    told: Option<&Told>,
    came: Apart,
    call: &Answer,
) -> Option<String> {
    if let Some(told) = told {
        if came != told.answer {
            return Some(format!("{came:?} in place of {:?}", told.answer));
        }
        if told.seen.as_ref().is_some_and(|seen| !seen.edges_agree) {
            return Some("the text's best pair of edges is not that of its transcription".into());
        }
    }
    let by_call = by_call(question, call);
    (came != by_call).then(|| format!("{came:?}, and by the call {by_call:?}"))
}

/// The answer that a call with an empty cache stands for: refused for the reasons that both have, apart where it has no points and
/// its next cache an axis strictly above the speculative distance; a call that is refused later is no yes.
fn by_call(question: &Question, call: &Answer) -> Apart {
    let status = call.outcome.status;
    if matches!(status, 1 | 2 | 3 | 17) {
        return Apart { status, apart: 0 };
    }
    let SatCache {
        kind, separation, ..
    } = call.cache;
    let speculative = question
        .a
        .size
        .known_unit()
        .map_or(f32::NAN, Unit::speculative_distance);
    let no_points = status == 0 && call.outcome.contact.count == 0;
    let axis = (2..=4).contains(&kind) && f32::from_bits(separation) > speculative;
    Apart {
        status: 0,
        apart: (no_points && axis).into(),
    }
}
