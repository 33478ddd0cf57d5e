//! Pairs of logs as they lie in a settled stack, B in A's frame: most touch, a few millimetres deep.

use crate::inputs::rounded;
use crate::shapes::solids::{frame, frustum, polygon};
use crate::shapes::{add, cross, dot, Shape};
use crate::Numbers;
use gaps::{touching_at, Body};
use records::{Quat, Transform};
use std::f64::consts::{PI, TAU};
use turns::{after, from_axes, spin, turned, IDENTITY};

mod gaps;
mod turns;

/// How the two logs lie.
#[derive(Debug, Clone, Copy, PartialEq, Eq)]
pub enum Class {
    /// A side flat on a side, but for a small noise in the angle.
    Flat,
    /// The axes parallel within a degree, B rolled about its own by any angle.
    Rolled,
    /// The axes at 15 to 90 degrees.
    Crossed,
    /// Near each other, but apart by more than the speculative distance.
    Apart,
}

impl Class {
    pub const ALL: [Class; 4] = [Class::Flat, Class::Rolled, Class::Crossed, Class::Apart];

    pub fn name(self) -> &'static str {
        match self {
            Class::Flat => "flat",
            Class::Rolled => "rolled",
            Class::Crossed => "crossed",
            Class::Apart => "near but apart",
        }
    }

    /// How many pairs of twenty are of this class.
    pub fn share(self) -> usize {
        match self {
            Class::Flat => 9,
            Class::Rolled => 5,
            Class::Crossed => 2,
            Class::Apart => 4,
        }
    }
}

/// Two logs by their numbers in the stack, and where B lies in A's frame.
#[derive(Debug, Clone, Copy)]
pub struct Pair {
    pub class: Class,
    pub a: usize,
    pub b: usize,
    pub transform: Transform,
}

/// How many logs lie beside each other in a stack by place.
const ROW: usize = 40;

/// Different logs, and pairs of them.
pub struct Stack {
    pub logs: Vec<Shape>,
    pub pairs: Vec<Pair>,
}

impl Stack {
    /// So many logs, and pairs of any two of every class by its share; exactly so where the number is a multiple of twenty.
    pub fn new(logs: usize, pairs: usize, n: &mut Numbers) -> Stack {
        Stack::of_pairs(logs, pairs, n, |_, n| [n.below(logs), n.below(logs)])
    }

    /// So many logs numbered by place, row on row, and pairs of neighbours in the order of their first log: in a row, and with the
    /// row above, where each lies on two or touches a third.
    pub fn by_place(logs: usize, pairs: usize, n: &mut Numbers) -> Stack {
        let above = [1, ROW - 1, ROW, ROW + 1];
        let beside = |a: usize| above.map(|by| [a, a + by]);
        let all: Vec<[usize; 2]> = (0..logs)
            .flat_map(beside)
            .filter(|&[_, b]| b < logs)
            .collect();
        assert!(pairs <= all.len(), "a log has fewer neighbours");
        // Evenly, where there are more than are wanted.
        Stack::of_pairs(logs, pairs, n, |place, _| all[place * all.len() / pairs])
    }

    fn of_pairs(
        logs: usize,
        pairs: usize,
        n: &mut Numbers,
        named: impl Fn(usize, &mut Numbers) -> [usize; 2],
    ) -> Stack {
        let made: Vec<(Log, Shape)> = (0..logs).map(|_| Log::any(n)).collect();
        let (bodies, logs): (Vec<Log>, Vec<Shape>) = made.into_iter().unzip();
        let twenty = || Class::ALL.into_iter().flat_map(|c| [c].repeat(c.share()));
        let classes: Vec<Class> = (0..pairs.div_ceil(20)).flat_map(|_| twenty()).collect();
        let order = n.order(classes.len());
        let pairs = order[..pairs].iter().enumerate().map(|(number, &place)| {
            let [a, b] = named(number, n);
            let class = classes[place];
            let transform = place_pair(class, &bodies[a], &bodies[b], n);
            Pair {
                class,
                a,
                b,
                transform,
            }
        });
        Stack {
            pairs: pairs.collect(),
            logs,
        }
    }
}

/// A prism or frustum of twelve sides along z, its middle at the origin.
struct Log {
    radius: f64,
    taper: f64,
    length: f64,
    body: Body,
}

impl Log {
    fn any(n: &mut Numbers) -> (Log, Shape) {
        let (radius, length) = (n.between(0.15, 0.3), n.between(3.0, 6.0));
        let taper = [1.0, n.between(0.8, 1.0)][n.below(2)];
        let solid = frustum(&polygon(12, radius), taper, length);
        let log = Log {
            radius,
            taper,
            length,
            body: Body::new(&solid),
        };
        (log, Shape::any(&solid, n))
    }

    /// Of a side: the direction out of it, the one along it and the one across; and its middle.
    fn side(&self, number: usize) -> ([[f64; 3]; 3], [f64; 3]) {
        let angle = TAU * (number as f64 + 0.5) / 12.0;
        let flat = [angle.cos(), angle.sin(), 0.0];
        let apothem = self.radius * (PI / 12.0).cos();
        let narrowing = apothem * (1.0 - self.taper);
        let long = self.length.hypot(narrowing);
        let along = add(
            flat.map(|x| -x * narrowing / long),
            [0.0, 0.0, self.length / long],
        );
        let across = [-angle.sin(), angle.cos(), 0.0];
        let middle = flat.map(|x| x * (apothem - narrowing / 2.0));
        ([cross(across, along), along, across], middle)
    }

    /// A place along the axis, away from the ends.
    fn along(&self, n: &mut Numbers) -> f64 {
        self.length * n.between(-0.4, 0.4)
    }
}

/// Where B lies before it is pushed along `push` until it touches.
struct Start {
    turn: Turn,
    at: [f64; 3],
    push: [f64; 3],
}

type Turn = [f64; 4];

const AXIS: [f64; 3] = [0.0, 0.0, 1.0];

fn place_pair(class: Class, a: &Log, b: &Log, n: &mut Numbers) -> Transform {
    let (start, deep) = match class {
        Class::Flat => (flat(a, b, n), n.between(0.0005, 0.005)),
        Class::Rolled => (rolled(a, b, n), n.between(0.0005, 0.005)),
        Class::Crossed => (crossed(a, b, n), n.between(0.0005, 0.005)),
        Class::Apart => {
            let start = match n.below(8) {
                0 => crossed(a, b, n),
                1 => end_to_end(a, b, n),
                _ => rolled(a, b, n),
            };
            (start, -n.between(0.025, 0.12))
        }
    };
    let Start { turn, at, push } = start;
    // Exactly so deep along the axis that separates the two where they only touch.
    let (touch, axis) = touching_at(&a.body, &b.body, turn, at, push);
    let by = touch - deep / dot(axis, push);
    let [x, y, z, s] = turn;
    Transform {
        p: rounded(add(at, push.map(|x| x * by))),
        q: Quat {
            v: rounded([x, y, z]),
            s: s as f32,
        },
    }
}

/// A turn by at most so much about any axis.
fn noise(angle: f64, n: &mut Numbers) -> Turn {
    let axis = frame(n)[0];
    spin(axis, n.between(-angle, angle))
}

/// Any side of B on any side of A, the logs the same way or opposite, shifted along and a little across.
fn flat(a: &Log, b: &Log, n: &mut Numbers) -> Start {
    let ([out, along, across], middle) = a.side(n.below(12));
    let (theirs, their_middle) = b.side(n.below(12));
    let way = [1.0, -1.0][n.below(2)];
    let ours = [
        out.map(|x| -x),
        along.map(|x| x * way),
        across.map(|x| -x * way),
    ];
    let turn = after(noise(0.0005, n), from_axes(theirs, ours));
    let (shift, aside) = (a.along(n) + b.along(n), n.between(-0.02, 0.02));
    let there = add(middle, along.map(|x| x * shift));
    let there = add(there, across.map(|x| x * aside));
    Start {
        turn,
        at: add(there, turned(turn, their_middle).map(|x| -x)),
        push: out,
    }
}

/// A direction across A's axis.
fn sideways(n: &mut Numbers) -> [f64; 3] {
    let angle = n.between(0.0, TAU);
    [angle.cos(), angle.sin(), 0.0]
}

/// Any roll, the logs the same way or opposite.
fn roll(n: &mut Numbers) -> Turn {
    let way = [IDENTITY, spin([1.0, 0.0, 0.0], PI)][n.below(2)];
    after(way, spin(AXIS, n.between(0.0, TAU)))
}

fn rolled(a: &Log, b: &Log, n: &mut Numbers) -> Start {
    let shift = a.along(n) + b.along(n);
    Start {
        turn: after(noise(PI / 180.0, n), roll(n)),
        at: AXIS.map(|x| x * shift),
        push: sideways(n),
    }
}

fn crossed(a: &Log, b: &Log, n: &mut Numbers) -> Start {
    let push = sideways(n);
    let turn = after(spin(push, n.between(PI / 12.0, PI / 2.0)), roll(n));
    let (here, there) = (a.along(n), b.along(n));
    Start {
        at: add(
            AXIS.map(|x| x * here),
            turned(turn, AXIS).map(|x| -x * there),
        ),
        turn,
        push,
    }
}

/// One log behind the other, a little aside.
fn end_to_end(a: &Log, b: &Log, n: &mut Numbers) -> Start {
    let aside = (a.radius + b.radius) * n.between(0.0, 0.6);
    let way = [1.0, -1.0][n.below(2)];
    Start {
        turn: after(noise(PI / 180.0, n), roll(n)),
        at: sideways(n).map(|x| x * aside),
        push: AXIS.map(|x| x * way),
    }
}
