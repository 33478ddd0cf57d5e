//! A step of a settled stack: 6,000 different logs and 20,000 warm pairs, one frame a pair, four ways in turn: the Rust text, which
//! judges nothing, into an array of manifolds, as a solver would have them, and into one manifold over and over; `contact_step`, which
//! judges every hull once; and call by call, where each hull is judged in each of its pairs. Once with the hulls numbered by place and
//! the pairs in their order, once with both at random.

use super::{batches, least_and_median};
use cases::calls::{same_answers, Answer, Call};
use cases::convert;
use cases::pairs::moved;
use cases::settled::Stack as Settled;
use cases::shapes::Shape;
use cases::Numbers;
use contact::{collide, step, Hull, Pair, SatCache, Stack, StepRoom, Transform, Unit};
use contact::{CACHE_WORDS, HULL_WORDS, PAIR_BYTES, PAIR_FLOATS, PAIR_WORDS, TRANSFORM_FLOATS};
use oracle::hull::HullData;
use oracle::math_functions as reading;
use oracle::open::{self, collide_hulls, LocalManifold};
use records::Outcome;
use std::hint::black_box;
use std::time::Instant;

const LOGS: usize = 6000;
const PAIRS: usize = 20_000;

/// How often each way is timed.
const ROUNDS: usize = 40;

/// How many frames there are before the one that is timed, and how far B moves from one to the next, in metres and radians.
const FRAMES: usize = 2;
const STEP: f32 = 3e-4;

pub fn run(n: &mut Numbers) {
    let by_place = Stacked::new(n);
    println!(
        "a step: {LOGS} different logs, {PAIRS} warm pairs; ms, least (median) of {} rounds",
        batches(ROUNDS)
    );
    by_place.mix();
    by_place.times("hulls and pairs by place");
    by_place.shuffled(n).times("hulls and pairs at random");
    by_place.memory();
}

/// The hulls, and of each pair the frame that is timed.
struct Stacked {
    logs: Vec<Shape>,
    frames: Vec<Frame>,
}

#[derive(Clone, Copy)]
struct Frame {
    pair: Pair,
    transform: Transform,
    cache: SatCache,
    /// By the text.
    wanted: Answer,
}

impl Stacked {
    fn new(n: &mut Numbers) -> Stacked {
        let Settled { logs, pairs } = Settled::by_place(LOGS, PAIRS, n);
        let frames = pairs.iter().map(|pair| {
            let mut call = Call {
                capacity: 4,
                a: logs[pair.a].lent(),
                b: logs[pair.b].lent(),
                transform: pair.transform,
                cache: SatCache::EMPTY,
            };
            for _ in 0..FRAMES {
                call.cache = call.wanted_once().cache;
                let there = convert::transform(call.transform);
                call.transform = convert::our_transform(moved(there, STEP, Unit::Metres, n));
            }
            Frame {
                pair: Pair {
                    a: pair.a as u32,
                    b: pair.b as u32,
                },
                transform: call.transform,
                cache: call.cache,
                wanted: call.wanted_once(),
            }
        });
        Stacked {
            frames: frames.collect(),
            logs,
        }
    }

    /// The same hulls under other numbers and in other places, and the same pairs in another order.
    fn shuffled(&self, n: &mut Numbers) -> Stacked {
        let order = n.order(self.logs.len());
        let mut number = vec![0; order.len()];
        for (new, &old) in order.iter().enumerate() {
            number[old] = new as u32;
        }
        let frames = n.order(self.frames.len()).into_iter().map(|place| {
            let frame = self.frames[place];
            let Pair { a, b } = frame.pair;
            let [a, b] = [a, b].map(|old| number[old as usize]);
            Frame {
                pair: Pair { a, b },
                ..frame
            }
        });
        Stacked {
            frames: frames.collect(),
            logs: order.iter().map(|&old| self.logs[old].clone()).collect(),
        }
    }

    /// One line: what the cached axes are, and how they serve.
    fn mix(&self) {
        let count =
            |wanted: &dyn Fn(&Frame) -> bool| self.frames.iter().filter(|f| wanted(f)).count();
        let hit = |frame: &Frame| frame.wanted.cache.hit();
        let of = |kind: u8| count(&|f| f.cache.kind == kind && hit(f));
        let points: usize = self
            .frames
            .iter()
            .map(|f| f.wanted.outcome.points().len())
            .sum();
        println!(
            "  served by a face of A {}, of B {}, by a pair of edges {}; misses {}; with points {}, {points} points",
            of(2),
            of(3),
            of(4),
            count(&|f| !hit(f)),
            count(&|f| !f.wanted.outcome.points().is_empty()),
        );
    }

    fn times(&self, what: &str) {
        let mut text = Text::new(self);
        let mut ours = Ours::new(self);
        // Once before anything is timed, and held to the text.
        let points: usize = self
            .frames
            .iter()
            .map(|f| f.wanted.outcome.points().len())
            .sum();
        ours.step();
        ours.hold(self, "a step");
        ours.calls();
        ours.hold(self, "call by call");
        let mut times = [const { Vec::new() }; 4];
        for _ in 0..batches(ROUNDS) {
            text.reset();
            ours.reset();
            times[0].push(timed(points, || text.step()));
            text.reset();
            times[1].push(timed(points, || text.step_into_one()));
            times[2].push(timed(points, || ours.step()));
            ours.reset();
            times[3].push(timed(points, || ours.calls()));
        }
        let [text, one, step, calls] = times.map(least_and_median);
        println!("  {what}");
        let row = |name: &str, (least, median): (f64, f64)| {
            println!(
                "    {name:<32} {least:>7.2} ({median:.2})  ratio {:.2} ({:.2})",
                least / text.0,
                median / text.1
            );
        };
        row("the text, nothing judged", text);
        row("the text, into one manifold", one);
        row("contact_step", step);
        row("call by call", calls);
    }

    /// What a host lends, in bytes.
    fn memory(&self) {
        let lists: usize = self
            .logs
            .iter()
            .map(|log| 4 * log.numbers.len() + log.links.len())
            .sum();
        let hull = lists / self.logs.len() + 4 * HULL_WORDS + 1;
        let words = PAIR_WORDS + TRANSFORM_FLOATS + CACHE_WORDS + PAIR_FLOATS;
        let pair = 4 * words + PAIR_BYTES;
        let all = hull * self.logs.len() + pair * self.frames.len();
        println!(
            "  lent: {hull} bytes a hull, {pair} a pair, {:.1} MB a step; nothing is allocated",
            all as f64 / 1e6
        );
    }
}

/// The text's own records, every hull with memory of its own.
struct Text<'a> {
    frames: &'a [Frame],
    hulls: Vec<HullData>,
    transforms: Vec<reading::Transform>,
    caches: Vec<open::SatCache>,
    manifolds: Vec<LocalManifold>,
}

impl<'a> Text<'a> {
    fn new(stacked: &'a Stacked) -> Self {
        let frames = &stacked.frames;
        Text {
            hulls: stacked.logs.iter().map(convert::hull).collect(),
            transforms: frames
                .iter()
                .map(|f| convert::transform(f.transform))
                .collect(),
            caches: vec![open::SatCache::default(); frames.len()],
            manifolds: vec![LocalManifold::default(); frames.len()],
            frames,
        }
    }

    fn reset(&mut self) {
        for (cache, frame) in self.caches.iter_mut().zip(self.frames) {
            *cache = convert::cache(frame.cache);
        }
    }

    #[inline(never)]
    fn step(&mut self) -> usize {
        let mut points = 0;
        for place in 0..self.frames.len() {
            points += self.pair(place, place);
        }
        points
    }

    #[inline(never)]
    fn step_into_one(&mut self) -> usize {
        let mut points = 0;
        for place in 0..self.frames.len() {
            points += self.pair(place, 0);
        }
        points
    }

    /// The pair at this place, into that manifold.
    #[inline(always)]
    fn pair(&mut self, place: usize, manifold: usize) -> usize {
        let Pair { a, b } = self.frames[place].pair;
        let hull = |number: u32| &self.hulls[number as usize];
        let (a, b) = (hull(a), hull(b));
        let manifold = &mut self.manifolds[manifold];
        let cache = &mut self.caches[place];
        collide_hulls(manifold, 4, a, b, self.transforms[place], cache);
        manifold.point_count as usize
    }
}

/// The lists of a step, and room for what single calls return.
struct Ours {
    stack: Stack,
    pairs: Vec<Pair>,
    transforms: Vec<Transform>,
    before: Vec<SatCache>,
    caches: Vec<SatCache>,
    room: StepRoom,
    outcomes: Vec<Outcome>,
}

impl Ours {
    fn new(stacked: &Stacked) -> Self {
        let mut stack = Stack::new();
        for log in &stacked.logs {
            stack.add(&log.lent().into()).expect("there is room");
        }
        let frames = &stacked.frames;
        let caches: Vec<SatCache> = frames.iter().map(|frame| frame.cache).collect();
        let mut room = StepRoom::new();
        room.grow(stack.len(), frames.len());
        Ours {
            stack,
            pairs: frames.iter().map(|frame| frame.pair).collect(),
            transforms: frames.iter().map(|frame| frame.transform).collect(),
            before: caches.clone(),
            caches,
            room,
            outcomes: Vec::new(),
        }
    }

    fn reset(&mut self) {
        self.caches.copy_from_slice(&self.before);
        self.outcomes.clear();
    }

    #[inline(never)]
    fn step(&mut self) -> usize {
        let hulls = self.stack.lend();
        let stepped = step(
            &hulls,
            &self.pairs,
            &self.transforms,
            &mut self.caches,
            &mut self.room,
        );
        stepped.expect("there is room").points()
    }

    #[inline(never)]
    fn calls(&mut self) -> usize {
        let hulls = self.stack.lend();
        let hull = |number: u32| -> Hull { hulls.hull(number).expect("it is there") };
        let mut points = 0;
        for (place, pair) in self.pairs.iter().enumerate() {
            let (a, b) = (hull(pair.a), hull(pair.b));
            let outcome = collide(&a, &b, self.transforms[place], &mut self.caches[place]);
            points += usize::from(outcome.contact.count);
            self.outcomes.push(outcome);
        }
        points
    }

    /// Panics where an answer is not the text's; leaves the caches as they were before.
    fn hold(&mut self, stacked: &Stacked, what: &str) {
        for (place, frame) in stacked.frames.iter().enumerate() {
            let from = |list: usize| list * place;
            let outcome = match self.outcomes.get(place) {
                Some(outcome) => *outcome,
                None => Outcome::of_step(
                    self.room.floats[from(PAIR_FLOATS)..]
                        .first_chunk()
                        .expect("a pair"),
                    self.room.bytes[from(PAIR_BYTES)..]
                        .first_chunk()
                        .expect("a pair"),
                ),
            };
            let came = Answer {
                outcome,
                cache: self.caches[place],
            };
            assert!(
                same_answers(&came, &frame.wanted),
                "{what}: {came:?}, {:?}",
                frame.wanted
            );
        }
        self.reset();
    }
}

/// Milliseconds; panics where there are not so many points.
fn timed(points: usize, step: impl FnOnce() -> usize) -> f64 {
    let start = Instant::now();
    let came = black_box(step());
    let time = 1e3 * start.elapsed().as_secs_f64();
    assert_eq!(came, points);
    time
}
