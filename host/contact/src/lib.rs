//! The proved contact routine, safe to call: two hulls, where B lies in A's frame and a small cache go in; a normal, at
//! most four tagged points and the next cache come out.
//!
//! A hull is lent, not copied, and judged by every call: one that breaks a rule is refused by its number, and so is a
//! transform or a cache that does not fit. No input makes a call fault. A cache starts as [`SatCache::EMPTY`] and stays
//! with its pair of hulls from step to step; of one that was saved with a retired type the outcome says so
//! ([`Outcome::retired_type_read`]). A point's tag is the same from step to step while the same features meet; where two
//! candidates carry one tag, the point's [`place`](Point::place) tells which of them it was. [`HullBuilder`] makes a hull from
//! its vertices and faces.
//!
//! A simulator with many hulls and pairs calls [`step`] once a step: it answers every pair as [`collide`] does and judges each hull
//! once, where call by call each is judged in each of its pairs. [`Stack`] holds the hulls.
//!
//! A host that wants a yes or a no and no points, such as an editor in which a log is dragged about, asks [`apart`]: whether two
//! hulls are farther from each other than the speculative distance. It takes no cache.
//!
//! # What a host must know
//!
//! - Units: a hull has one of four length units ([`Unit`], metres if nothing is said), and both hulls of a call have the same.
//!   B's place and everything that comes out is in that unit and in A's frame, the normal from A to B; a separation is below
//!   zero where the hulls overlap. Limits and tolerances go by the unit: [`Unit::farthest`] and those beside it.
//! - Threads: the library has no state and allocates nothing; any number of threads may call it.
//! - Stack: a call, a [`step`] and [`apart`] need at most 24 KB of their thread's stack, [`answer`] 32 KB, beside what the thread
//!   needs itself.
//! - Floating point: the default environment, round to nearest, no flush to zero, no denormals as zero. Nothing tests it,
//!   and with another one the answers are others.
//! - Platform: x86-64 Linux. The library is looked for in the repository's target/staticlib, or in the folder that the
//!   environment variable `CONTACT_LIBRARY_DIR` names; `cargo check` and `cargo doc` need none.
//! - Version: [`check_library`]. Nothing is called of a library that has other records.
//! - What is proved is the library. This wrapper is not: it hands over what it is given, and its types see to it that the
//!   memory is there and that the cache overlaps nothing.
//!
//! # Example
//!
//! ```
//! use contact::{
//!     collide, CacheKind, Contact, Hull, HullSize, Quat, Refusal, SatCache, Transform, Unit, Vec3, UNUSED_PLACE,
//! };
//!
//! // A corner of a cube, in metres: four vertices, twelve half-edges, four faces.
//! let size = HullSize { unit: Unit::Metres.into(), vertices: 4, half_edges: 12, faces: 4 };
//! let s = 1.0 / 3f32.sqrt();
//! #[rustfmt::skip]
//! let numbers = [
//!     0.0, 0.0, 0.0,  1.0, 1.0, 1.0,                   // the box
//!     0.0, 1.0, 0.0, 0.0,                              // x of each vertex
//!     0.0, 0.0, 1.0, 0.0,                              // y
//!     0.0, 0.0, 0.0, 1.0,                              // z
//!     0.0, 0.0, -1.0, 0.0,   0.0, -1.0, 0.0, 0.0,      // normal and offset of each face
//!     -1.0, 0.0, 0.0, 0.0,   s, s, s, s,
//! ];
//! #[rustfmt::skip]
//! let links = [
//!     9, 3, 11, 7,                                     // an edge at each vertex
//!     2, 1, 0, 0,   9, 0, 2, 2,   4, 3, 2, 0,          // next, twin, origin and face of each half-edge
//!     11, 2, 1, 3,  0, 5, 1, 0,   6, 4, 0, 1,
//!     8, 7, 1, 1,   3, 6, 3, 3,   5, 9, 3, 1,
//!     10, 8, 0, 2,  1, 11, 3, 2,  7, 10, 2, 3,
//!     0, 5, 9, 3,                                      // an edge of each face
//! ];
//! let hull = Hull::new(size, &numbers, &links)?;
//!
//! // B a little below the tip of A.
//! let at = |z| Transform { p: Vec3 { x: 0.0, y: 0.0, z }, q: Quat::IDENTITY };
//! let mut cache = SatCache::EMPTY;
//! let outcome = collide(&hull, &hull, at(0.99), &mut cache);
//! assert_eq!(outcome.points().len(), 4);
//! assert_eq!(cache.kind(), CacheKind::FaceA { face: 3 }); // the slope of A
//!
//! // The next step begins with the axis that this one found.
//! let outcome = collide(&hull, &hull, at(0.991), &mut cache);
//! assert_eq!((outcome.points().len(), cache.hit), (4, 1));
//!
//! // Of each point which candidate it was: no two are the same.
//! let places: Vec<u8> = outcome.points().iter().map(|point| point.place).collect();
//! assert_eq!(places, [0, 1, 2, 3]);
//! assert_eq!(Contact::EMPTY.points[0].place, UNUSED_PLACE);
//!
//! // What breaks a rule is refused, and the cache stays as it was.
//! let outcome = collide(&hull, &hull, at(f32::NAN), &mut cache);
//! assert_eq!(outcome.accepted(), Err(Refusal::Transform));
//! assert_eq!(cache.hit, 1);
//!
//! // A saved run may hold a cache of a retired type: it serves as an empty one, and the outcome says that it was read.
//! let mut saved = SatCache { kind: 7, ..cache };
//! assert_eq!(saved.kind().to_string(), "no axis (type 7 is retired)");
//! let outcome = collide(&hull, &hull, at(0.99), &mut saved);
//! assert!(outcome.retired_type_read());
//! assert_eq!(saved.kind(), CacheKind::FaceA { face: 3 });
//! let outcome = collide(&hull, &hull, at(0.99), &mut saved);
//! assert!(!outcome.retired_type_read());
//! # Ok::<(), contact::HullError>(())
//! ```

pub use apart::{apart, apart_record};
pub use broken::Broken;
pub use builder::{BuildError, Counted, HullBuilder, OwnedHull, FLAT_TOLERANCE};
pub use hull::{Hull, HullError};
pub use records::*;
pub use stack::{Hulls, Stack, StackError};
pub use step::{step, step_lists, Cause, NoRoom, PairAnswer, PairRefused, StepRoom, Stepped};

use std::fmt;
use std::ops::Deref;

mod apart;
mod broken;
mod builder;
mod hull;
mod linked;
mod shells;
mod stack;
mod step;

/// Whether the linked library has the records of this wrapper. A host asks when it starts, to say so in its own way; every
/// other function here panics with the same words where it has not, before anything is called.
///
/// ```
/// contact::check_library()?;
/// # Ok::<(), contact::OtherLibrary>(())
/// ```
#[inline]
pub fn check_library() -> Result<(), OtherLibrary> {
    // It takes nothing and returns a number.
    match unsafe { linked::contact_abi() } {
        ABI => Ok(()),
        found => Err(OtherLibrary { found }),
    }
}

/// The linked library has other records than this wrapper.
#[derive(Debug, Clone, Copy, PartialEq, Eq)]
pub struct OtherLibrary {
    /// Its number.
    pub found: u32,
}

impl fmt::Display for OtherLibrary {
    fn fmt(&self, f: &mut fmt::Formatter) -> fmt::Result {
        let found = self.found;
        write!(
            f,
            "libcontactlib.a has ABI {found} and this wrapper has {ABI}: take both from the same release"
        )
    }
}

impl std::error::Error for OtherLibrary {}

/// A refusal of a call or a question; where it is one of a hull, with the rule that the hull breaks and the place. It prints as one sentence, in
/// which lengths are told in the hulls' unit.
#[derive(Debug, Clone, PartialEq, Eq)]
pub struct Refused {
    pub refusal: Refusal,
    pub broken: Option<Broken>,
    /// The units of hull A and hull B as they were lent, known or not.
    pub units: [usize; 2],
}

impl Refused {
    /// Why the call on these two hulls was refused; none where it was accepted. A hull is judged once more for it.
    ///
    /// ```
    /// # use contact::*;
    /// # let size = HullSize { unit: 1, vertices: 4, half_edges: 12, faces: 4 };
    /// # let place = Transform { p: Vec3::ZERO, q: Quat::IDENTITY };
    /// let (a, b) = (Hull::lent(size, &[], &[]), Hull::lent(size, &[], &[]));
    /// let outcome = collide(&a, &b, place, &mut SatCache::default());
    /// let refused = Refused::of(&outcome, &a, &b).unwrap();
    /// assert_eq!(refused.refusal, Refusal::HullA);
    /// println!("{refused}"); // refusal 1: hull A breaks a rule: H1 is broken: there are 0 numbers, and the sizes ask for 34; ..
    /// ```
    pub fn of(outcome: &Outcome, a: &Hull, b: &Hull) -> Option<Refused> {
        Some(Refused::new(outcome.refusal()?, a, b))
    }

    /// The same of a refusal by itself, as [`apart`] has it.
    pub fn new(refusal: Refusal, a: &Hull, b: &Hull) -> Refused {
        let broken = match refusal {
            Refusal::HullA => a.broken(),
            Refusal::HullB => b.broken(),
            _ => None,
        };
        Refused {
            refusal,
            broken,
            units: [a, b].map(|hull| hull.size().unit),
        }
    }

    /// What was refused, with the place in a hull, both units or the limit of the unit where the refusal is about these.
    fn meaning(&self) -> String {
        let meaning = self.refusal.meaning();
        match (self.refusal, &self.broken) {
            (_, Some(broken)) => format!("{meaning}: {broken}"),
            (Refusal::Units, None) => {
                let [a, b] = self.units.map(in_words);
                format!("hull A is in {a} and hull B in {b}")
            }
            (Refusal::Transform, None) => match Unit::try_from(self.units[0]) {
                Ok(unit) => {
                    let limit = format!("{} {}", unit.farthest(), unit.symbol());
                    meaning.replace("4096 * unit", &limit)
                }
                Err(_) => meaning.into(),
            },
            _ => meaning.into(),
        }
    }
}

/// The unit by its name.
fn in_words(per_metre: usize) -> String {
    match Unit::try_from(per_metre) {
        Ok(unit) => unit.to_string(),
        Err(_) => format!("a unit of {per_metre} per metre"),
    }
}

impl fmt::Display for Refused {
    fn fmt(&self, f: &mut fmt::Formatter) -> fmt::Result {
        let (number, meaning) = (self.refusal.number(), self.meaning());
        write!(f, "refusal {number}: {meaning}")?;
        match self.broken {
            // What to do is said of the rule.
            Some(_) => Ok(()),
            None => write!(f, "; what to do: {}", self.refusal.remedy()),
        }
    }
}

impl std::error::Error for Refused {}

/// The contact of hull A and hull B, B placed in A's frame; both hulls, and so the transform and all that comes out, are in one
/// unit, else the call is refused ([`Refusal::Units`]). The cache becomes the next one, where the call is accepted. Whether it had
/// a retired type is told by [`Outcome::retired_type_read`].
///
/// ```
/// # use contact::*;
/// // Two boards, 4 m long, 20 cm wide and 5 cm thick, one on the other: in centimetres.
/// let board = HullBuilder::board(400.0, 20.0, 5.0).unit(Unit::Centimetres).build()?;
/// let on_top = |z| Transform { p: Vec3 { x: 0.0, y: 0.0, z }, q: Quat::IDENTITY };
/// let mut cache = SatCache::EMPTY;
/// let outcome = collide(&board.lend(), &board.lend(), on_top(6.0), &mut cache);
/// assert_eq!(outcome.points().len(), 4); // 1 cm apart: nearer than 2 cm, the speculative distance
/// assert_eq!(outcome.points()[0].separation, 1.0);
///
/// // A hull in metres does not go with it, and what is said names both units.
/// let log = HullBuilder::log(12, 0.15, 0.12, 4.0).build()?;
/// let (a, b) = (board.lend(), log.lend());
/// let outcome = collide(&a, &b, on_top(6.0), &mut cache);
/// let refused = Refused::of(&outcome, &a, &b).unwrap();
/// assert_eq!(refused.refusal, Refusal::Units);
/// let words = refused.to_string();
/// assert!(words.starts_with("refusal 17: hull A is in centimetres and hull B in metres; what to do: "));
/// # Ok::<(), BuildError>(())
/// ```
///
/// ```
/// # use contact::*;
/// # let log = HullBuilder::log(12, 0.15, 0.12, 4.0).build()?;
/// # let (a, b) = (log.lend(), log.lend());
/// # let b_in_a = Transform { p: Vec3 { x: 0.0, y: 0.0, z: 0.2 }, q: Quat::IDENTITY };
/// let mut cache = SatCache { kind: 6, ..SatCache::EMPTY }; // as a saved run may hold it
/// let outcome = collide(&a, &b, b_in_a, &mut cache);
/// assert!(outcome.retired_type_read() && !cache.has_retired_type());
/// # Ok::<(), BuildError>(())
/// ```
#[inline]
pub fn collide(a: &Hull, b: &Hull, transform: Transform, cache: &mut SatCache) -> Outcome {
    collide_with(MAX_MANIFOLD_POINTS as i32, a, b, transform, cache)
}

/// The same with room for so many points: with less than four there are none, and nothing else is looked at, not even the
/// cache's type.
#[inline]
pub fn collide_with(
    capacity: i32,
    a: &Hull,
    b: &Hull,
    transform: Transform,
    cache: &mut SatCache,
) -> Outcome {
    linked::fits();
    // The library asks nothing of its lists and sizes, and writes to nothing but the cache.
    unsafe {
        linked::contact_collide(
            capacity,
            a.numbers().as_ptr(),
            a.numbers().len(),
            a.links().as_ptr(),
            a.links().len(),
            a.size(),
            b.numbers().as_ptr(),
            b.numbers().len(),
            b.links().as_ptr(),
            b.links().len(),
            b.size(),
            transform,
            cache,
        )
    }
}

/// The most bytes of an answer to a frame.
pub const LONGEST_ANSWER: usize = 108;

/// The bytes of an answer.
#[derive(Debug, Clone, Copy)]
pub struct Answer {
    bytes: [u8; LONGEST_ANSWER],
    length: usize,
}

impl Deref for Answer {
    type Target = [u8];

    fn deref(&self) -> &[u8] {
        &self.bytes[..self.length]
    }
}

/// The answer to one frame in bytes, its kind first: what the program `contact` prints for the same frame in hexadecimal.
///
/// ```
/// assert_eq!(*contact::answer(&[0x10, 0x40, 0x80, 0, 0]), [0x90, 0x40, 0, 0, 0]); // the root of 4 is 2
/// assert_eq!(*contact::answer(&[0x13]), [0xff, 0x22]); // there is no such kind
/// ```
pub fn answer(frame: &[u8]) -> Answer {
    let mut bytes = [0; LONGEST_ANSWER];
    let length = answer_into(frame, &mut bytes);
    Answer { bytes, length }
}

/// The same into a list of the caller's: how many bytes the answer has. Where the list has fewer than
/// [`LONGEST_ANSWER`], that is 0 and nothing is written.
#[inline]
pub fn answer_into(frame: &[u8], answer: &mut [u8]) -> usize {
    linked::fits();
    // The library asks nothing of the two lists, and writes to nothing but the second.
    unsafe {
        linked::contact_answer(
            frame.as_ptr(),
            frame.len(),
            answer.as_mut_ptr(),
            answer.len(),
        )
    }
}
