//! The calls that are timed: settled pairs of logs, each from where it lies through frames of small movements, with the
//! cache of the frame before.

use cases::calls::{Answer, Call};
use cases::convert;
use cases::pairs::moved;
use cases::settled::{Class, Pair, Stack};
use cases::Numbers;
use oracle::hull::HullData;
use oracle::open::{search, SeparatingFeature};
use records::{SatCache, Transform, Unit};

const LOGS: usize = 64;
pub const PAIRS: usize = 2000;
pub const FRAMES: usize = 24;

/// A frame's movement in metres and its turn in radians are at most this.
const STEP: f32 = 3e-4;

/// The logs in the records of both sides, and the frames of all pairs.
pub struct Settled {
    stack: Stack,
    hulls: Vec<HullData>,
    pub steps: Vec<Step>,
}

/// One frame of a pair.
pub struct Step {
    pair: Pair,
    /// The first has a cache of type 0, the others that of the frame before.
    pub first: bool,
    pub transform: Transform,
    pub cache: SatCache,
    /// By the text.
    pub wanted: Answer,
}

impl Step {
    pub fn class(&self) -> Class {
        self.pair.class
    }
}

impl Settled {
    pub fn new(n: &mut Numbers) -> Settled {
        let stack = Stack::new(LOGS, PAIRS, n);
        let mut settled = Settled {
            hulls: stack.logs.iter().map(convert::hull).collect(),
            steps: Vec::new(),
            stack,
        };
        for place in 0..PAIRS {
            let pair = settled.stack.pairs[place];
            let mut cache = SatCache::EMPTY;
            for (frame, transform) in settled.frames(&pair, n).into_iter().enumerate() {
                let mut step = Step {
                    pair,
                    first: frame == 0,
                    transform,
                    cache,
                    wanted: cases::calls::empty(0, cache),
                };
                step.wanted = settled.call(&step).wanted();
                cache = step.wanted.cache;
                settled.steps.push(step);
            }
        }
        settled
    }

    pub fn call(&self, step: &Step) -> Call<'_> {
        Call {
            capacity: 4,
            a: self.stack.logs[step.pair.a].lent(),
            b: self.stack.logs[step.pair.b].lent(),
            transform: step.transform,
            cache: step.cache,
        }
    }

    /// The hulls of a step in the text's records.
    pub fn hulls(&self, step: &Step) -> (&HullData, &HullData) {
        self.hulls_of(&step.pair)
    }

    fn hulls_of(&self, pair: &Pair) -> (&HullData, &HullData) {
        (&self.hulls[pair.a], &self.hulls[pair.b])
    }

    /// From where the pair lies, drawn anew until it stays apart or stays touching, as its class says.
    fn frames(&self, pair: &Pair, n: &mut Numbers) -> Vec<Transform> {
        let (a, b) = self.hulls_of(pair);
        loop {
            let mut there = convert::transform(pair.transform);
            let mut frames = Vec::new();
            for _ in 0..FRAMES {
                frames.push(convert::our_transform(there));
                there = moved(there, STEP, Unit::Metres, n);
            }
            let stays = |&frame: &Transform| {
                let feature = search(a, b, convert::transform(frame), true).separated_feature;
                (feature != SeparatingFeature::InvalidAxis) == (pair.class == Class::Apart)
            };
            if frames.iter().all(stays) {
                return frames;
            }
        }
    }
}
