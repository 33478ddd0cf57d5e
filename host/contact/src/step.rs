//! A step: many pairs of many hulls in one call, each hull judged once.

use crate::{
    linked, Broken, HullRecord, Hulls, Outcome, Pair, Point, Refusal, Refused, Rule, SatCache,
    Step, Transform, Vec3, CACHE_WORDS, HULL_WORDS, PAIR_BYTES, PAIR_FLOATS, PAIR_WORDS,
    TRANSFORM_FLOATS,
};
use std::fmt;
use std::mem::{align_of, size_of};

/// One step over the bare lists, as the library takes them (docs/RULES.md, "A step"): nothing is copied and nothing allocated.
/// [`step`] is the same with records in their place.
///
/// Half a pair at the end and less than six words of a hull are not looked at; places behind those that are written keep what they
/// held. Where `judged`, `transforms`, `caches`, `floats` or `bytes` is too short, the status is 21 and nothing is written.
#[allow(clippy::too_many_arguments)]
#[inline]
pub fn step_lists(
    numbers: &[f32],
    links: &[u8],
    hulls: &[u32],
    pairs: &[u32],
    transforms: &[f32],
    judged: &mut [u8],
    caches: &mut [u32],
    floats: &mut [f32],
    bytes: &mut [u8],
) -> Step {
    linked::fits();
    // The library asks nothing of its lists, and writes to nothing but the last four, which overlap nothing since they are borrowed
    // alone.
    unsafe {
        linked::contact_step(
            numbers.as_ptr(),
            numbers.len(),
            links.as_ptr(),
            links.len(),
            hulls.as_ptr(),
            hulls.len(),
            pairs.as_ptr(),
            pairs.len(),
            transforms.as_ptr(),
            transforms.len(),
            judged.as_mut_ptr(),
            judged.len(),
            caches.as_mut_ptr(),
            caches.len(),
            floats.as_mut_ptr(),
            floats.len(),
            bytes.as_mut_ptr(),
            bytes.len(),
        )
    }
}

/// Room for what a step writes beside the caches. It grows where a step needs more, and is kept from step to step.
#[derive(Debug, Clone, Default)]
pub struct StepRoom {
    /// A byte a hull: the first rule that it breaks, 0 if none.
    pub judged: Vec<u8>,
    /// [`PAIR_FLOATS`] a pair.
    pub floats: Vec<f32>,
    /// [`PAIR_BYTES`] a pair.
    pub bytes: Vec<u8>,
}

impl StepRoom {
    pub fn new() -> StepRoom {
        StepRoom::default()
    }

    /// At least so much that a step of so many hulls and pairs allocates nothing.
    pub fn grow(&mut self, hulls: usize, pairs: usize) {
        let StepRoom {
            judged,
            floats,
            bytes,
        } = self;
        judged.resize(judged.len().max(hulls), 0);
        floats.resize(floats.len().max(PAIR_FLOATS * pairs), 0.0);
        bytes.resize(bytes.len().max(PAIR_BYTES * pairs), 0);
    }
}

/// Each pair of hulls as [`collide`](crate::collide) answers it, by its transform and its cache, which becomes the next one where
/// the pair is accepted; each hull is judged once, and not once a pair. Nothing is copied: hulls, pairs, transforms and caches are
/// lent as they lie, and the answers are read where the library writes them.
///
/// There is a transform and a cache for each pair; more of them stay as they are.
///
/// ```
/// use contact::{step, HullBuilder, Pair, Quat, Refusal, Rule, SatCache, Stack, StepRoom, Transform, Vec3};
///
/// // Three logs, one on the other, numbered by place.
/// let mut stack = Stack::new();
/// for radius in [0.2, 0.15, 0.1] {
///     stack.add(&HullBuilder::log(12, radius, radius, 4.0).build()?.lend())?;
/// }
/// let above = |z| Transform { p: Vec3 { x: 0.0, y: 0.0, z }, q: Quat::IDENTITY };
/// let pairs = [Pair { a: 0, b: 1 }, Pair { a: 1, b: 2 }, Pair { a: 0, b: 2 }];
/// let transforms = [above(0.34), above(0.24), above(0.58)];
/// let mut caches = [SatCache::EMPTY; 3];
/// let mut room = StepRoom::new();
///
/// let stepped = step(&stack.lend(), &pairs, &transforms, &mut caches, &mut room)?;
/// let counts: Vec<usize> = stepped.answers().map(|answer| answer.points().len()).collect();
/// assert_eq!(counts, [4, 4, 0]); // the first and the last log do not meet
/// assert_eq!(stepped.points(), 8);
/// let deepest = stepped.answers().flat_map(|answer| answer.points()).map(|point| point.separation);
/// assert!(deepest.fold(f32::INFINITY, f32::min) > -0.05);
/// assert_eq!(caches.map(|cache| cache.hit), [0; 3]);
///
/// // The next step begins with the axes that this one found.
/// let stepped = step(&stack.lend(), &pairs, &transforms, &mut caches, &mut room)?;
/// assert_eq!(stepped.points(), 8);
/// assert_eq!(caches.map(|cache| cache.hit), [1; 3]);
///
/// // A pair that is refused says why, and keeps its cache; the others are answered all the same.
/// let pairs = [Pair { a: 0, b: 1 }, Pair { a: 1, b: 7 }, Pair { a: 0, b: 2 }];
/// let before = caches;
/// let stepped = step(&stack.lend(), &pairs, &transforms, &mut caches, &mut room)?;
/// assert_eq!((stepped.points(), stepped.answer(1).refusal()), (4, Some(Refusal::HullB)));
/// assert_eq!(
///     stepped.refused(1).unwrap().to_string(),
///     "pair 1, of hulls 1 and 7: refusal 2: there is no hull 7: 3 are lent; what to do: name a hull by its number, from 0"
/// );
/// assert_eq!(caches[1], before[1]);
/// # Ok::<(), Box<dyn std::error::Error>>(())
/// ```
pub fn step<'a>(
    hulls: &Hulls<'a>,
    pairs: &'a [Pair],
    transforms: &[Transform],
    caches: &mut [SatCache],
    room: &'a mut StepRoom,
) -> Result<Stepped<'a>, NoRoom> {
    room.grow(hulls.len(), pairs.len());
    let Step { status, points } = step_lists(
        hulls.numbers,
        hulls.links,
        flat(hulls.records),
        flat(pairs),
        flat(transforms),
        &mut room.judged,
        flat_mut(caches),
        &mut room.floats,
        &mut room.bytes,
    );
    match status {
        0 => {}
        21 => return Err(NoRoom::of(pairs.len(), transforms.len(), caches.len())),
        // A library of this ABI number gives no other; if one did, its answers must not pass for those of a step.
        _ => panic!(
            "libcontactlib.a gives a step the status {status}, which this wrapper does not know"
        ),
    }
    Ok(Stepped::written(*hulls, pairs, points, room))
}

/// What a step wrote.
#[derive(Debug, Clone, Copy)]
pub struct Stepped<'a> {
    hulls: Hulls<'a>,
    pairs: &'a [Pair],
    points: usize,
    judged: &'a [u8],
    floats: &'a [[f32; PAIR_FLOATS]],
    bytes: &'a [[u8; PAIR_BYTES]],
}

impl<'a> Stepped<'a> {
    /// What a step over these hulls and pairs, with so many points, wrote into the room; for hosts that call [`step_lists`]. Panics
    /// where the room is too small for them.
    pub fn written(
        hulls: Hulls<'a>,
        pairs: &'a [Pair],
        points: usize,
        room: &'a StepRoom,
    ) -> Stepped<'a> {
        Stepped {
            judged: &room.judged[..hulls.len()],
            floats: &room.floats.as_chunks().0[..pairs.len()],
            bytes: &room.bytes.as_chunks().0[..pairs.len()],
            hulls,
            pairs,
            points,
        }
    }

    /// The points of all pairs together.
    #[inline]
    pub fn points(&self) -> usize {
        self.points
    }

    /// How many pairs there are.
    #[inline]
    pub fn len(&self) -> usize {
        self.pairs.len()
    }

    #[inline]
    pub fn is_empty(&self) -> bool {
        self.pairs.is_empty()
    }

    /// The answer to the pair at this place. Panics where there is none.
    #[inline]
    pub fn answer(&self, place: usize) -> PairAnswer<'a> {
        PairAnswer {
            pair: self.pairs[place],
            floats: &self.floats[place],
            bytes: &self.bytes[place],
        }
    }

    /// The answers in the order of the pairs.
    pub fn answers(&self) -> impl ExactSizeIterator<Item = PairAnswer<'a>> + use<'a> {
        let stepped = *self;
        (0..stepped.len()).map(move |place| stepped.answer(place))
    }

    /// The first rule that the hull of this number breaks; none where it is good. Panics where there is no such hull.
    pub fn broken_rule(&self, hull: u32) -> Option<Rule> {
        match self.judged[hull as usize] {
            0 => None,
            // Only 0 says that a hull is good.
            number => Some(Rule::of_number(number).unwrap_or_else(|| {
                panic!(
                    "libcontactlib.a tells of a rule H{number}, which this wrapper does not know"
                )
            })),
        }
    }

    /// The same with the first place that breaks the rule, for people.
    pub fn broken(&self, hull: u32) -> Option<Broken> {
        let rule = self.broken_rule(hull)?;
        Some(match self.hulls.hull(hull) {
            Some(inside) => Broken::new(inside.lists(), rule),
            None => Broken {
                rule,
                place: self.hulls.outside(hull),
            },
        })
    }

    /// The hulls that break a rule, by their numbers.
    pub fn broken_hulls(&self) -> impl Iterator<Item = (u32, Rule)> + use<'a> {
        let stepped = *self;
        (0..stepped.hulls.len() as u32)
            .filter_map(move |hull| Some((hull, stepped.broken_rule(hull)?)))
    }

    /// Why the pair at this place was refused, for people; none where it was accepted. Panics where there is no such pair.
    pub fn refused(&self, place: usize) -> Option<PairRefused> {
        let answer = self.answer(place);
        let (refusal, pair) = (answer.refusal()?, answer.pair());
        let named = match refusal {
            Refusal::HullA => Some(pair.a),
            Refusal::HullB => Some(pair.b),
            _ => None,
        };
        let hulls = self.hulls.len();
        let cause = match named {
            Some(number) if number as usize >= hulls => Cause::NoSuchHull {
                refusal,
                number,
                hulls,
            },
            _ => Cause::Call(Refused {
                refusal,
                broken: named.and_then(|hull| self.broken(hull)),
                units: [pair.a, pair.b].map(|hull| {
                    let record = self.hulls.records.get(hull as usize);
                    record.map_or(0, |record| record.size().unit)
                }),
            }),
        };
        Some(PairRefused { place, pair, cause })
    }
}

/// The answer to a pair, read where it was written.
#[derive(Debug, Clone, Copy)]
pub struct PairAnswer<'a> {
    pair: Pair,
    floats: &'a [f32; PAIR_FLOATS],
    bytes: &'a [u8; PAIR_BYTES],
}

impl PairAnswer<'_> {
    /// The numbers of its hulls.
    #[inline]
    pub fn pair(&self) -> Pair {
        self.pair
    }

    /// All of it, as [`collide`](crate::collide) returns it.
    #[inline]
    pub fn outcome(&self) -> Outcome {
        Outcome::of_step(self.floats, self.bytes)
    }

    /// Why the pair was refused, if it was.
    #[inline]
    pub fn refusal(&self) -> Option<Refusal> {
        Refusal::of_status(self.bytes[crate::STATUS_BYTE])
    }

    /// From A to B, in A's frame; zero where there are no points.
    #[inline]
    pub fn normal(&self) -> Vec3 {
        let [x, y, z, ..] = *self.floats;
        Vec3 { x, y, z }
    }

    /// The contact's points, in A's frame; none where the hulls do not touch and where the pair was refused.
    #[inline]
    pub fn points(&self) -> impl ExactSizeIterator<Item = Point> + use<> {
        let (points, count) = (
            self.outcome().contact.points,
            self.bytes[crate::COUNT_BYTE].into(),
        );
        points.into_iter().take(count)
    }

    /// As [`Outcome::retired_type_read`].
    #[inline]
    pub fn retired_type_read(&self) -> bool {
        self.bytes[crate::RETIRED_BYTE] != 0
    }
}

/// A pair that was refused, and why. It prints as one sentence.
#[derive(Debug, Clone, PartialEq, Eq)]
pub struct PairRefused {
    /// Its place in the list of pairs.
    pub place: usize,
    pub pair: Pair,
    pub cause: Cause,
}

/// Why a pair was refused.
#[derive(Debug, Clone, PartialEq, Eq)]
pub enum Cause {
    /// It names a hull that is not there: the first by refusal 1, the second by 2.
    NoSuchHull {
        refusal: Refusal,
        number: u32,
        hulls: usize,
    },
    /// As a call on these two hulls is refused.
    Call(Refused),
}

impl fmt::Display for PairRefused {
    fn fmt(&self, f: &mut fmt::Formatter) -> fmt::Result {
        let PairRefused { place, pair, cause } = self;
        write!(f, "pair {place}, of hulls {} and {}: ", pair.a, pair.b)?;
        match cause {
            Cause::NoSuchHull {
                refusal,
                number,
                hulls,
            } => write!(
                f,
                "refusal {}: there is no hull {number}: {hulls} are lent; what to do: name a hull by its number, from 0",
                refusal.number()
            ),
            Cause::Call(refused) => refused.fmt(f),
        }
    }
}

impl std::error::Error for PairRefused {}

/// A list that is too short for the pairs of a step. Nothing was written, and every cache is as it was.
#[derive(Debug, Clone, Copy, PartialEq, Eq)]
pub enum NoRoom {
    Transforms { pairs: usize, found: usize },
    Caches { pairs: usize, found: usize },
}

impl NoRoom {
    fn of(pairs: usize, transforms: usize, caches: usize) -> NoRoom {
        if transforms < pairs {
            let found = transforms;
            return NoRoom::Transforms { pairs, found };
        }
        assert!(
            caches < pairs,
            "libcontactlib.a finds no room for {pairs} pairs, and there is room"
        );
        let found = caches;
        NoRoom::Caches { pairs, found }
    }
}

impl fmt::Display for NoRoom {
    fn fmt(&self, f: &mut fmt::Formatter) -> fmt::Result {
        let (what, pairs, found) = match self {
            NoRoom::Transforms { pairs, found } => ("transforms", pairs, found),
            NoRoom::Caches { pairs, found } => ("caches", pairs, found),
        };
        write!(
            f,
            "refusal 21: there are {pairs} pairs and {found} {what}; what to do: lend one for each pair"
        )
    }
}

impl std::error::Error for NoRoom {}

/// A record that is a row of parts, as many as its size has: no padding, any bits are good, and the alignment is that of a part.
///
/// # Safety
///
/// All of that holds.
unsafe trait Row {
    type Part;
    const PARTS: usize;
}

// They are #[repr(C)] with fields of 32 bits, but for the last four of a cache, which are bytes and make one word.
unsafe impl Row for HullRecord {
    type Part = u32;
    const PARTS: usize = HULL_WORDS;
}
unsafe impl Row for Pair {
    type Part = u32;
    const PARTS: usize = PAIR_WORDS;
}
unsafe impl Row for Transform {
    type Part = f32;
    const PARTS: usize = TRANSFORM_FLOATS;
}
unsafe impl Row for SatCache {
    type Part = u32;
    const PARTS: usize = CACHE_WORDS;
}

const fn is_row<T: Row>() -> bool {
    size_of::<T>() == T::PARTS * size_of::<T::Part>() && align_of::<T>() == align_of::<T::Part>()
}

/// The list as the list of its parts.
#[inline]
fn flat<T: Row>(list: &[T]) -> &[T::Part] {
    const { assert!(is_row::<T>()) };
    // The same memory for the same time; a record is a row of parts.
    unsafe { std::slice::from_raw_parts(list.as_ptr().cast(), T::PARTS * list.len()) }
}

#[inline]
fn flat_mut<T: Row>(list: &mut [T]) -> &mut [T::Part] {
    const { assert!(is_row::<T>()) };
    // As above, and whatever is written is a record.
    unsafe { std::slice::from_raw_parts_mut(list.as_mut_ptr().cast(), T::PARTS * list.len()) }
}
