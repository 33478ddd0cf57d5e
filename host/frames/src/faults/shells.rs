//! Faults about H9: a hull is one closed shell without a hole.

use super::{of_call, right, without_end, Answers};
use crate::codec::{self, Asked, CALL, STATUS};
use crate::{hex, wanted};
use cases::calls::{empty, Given};
use cases::shapes::solids::block;
use cases::shapes::{Link, Shape};

/// How H9 is tested of hull A (refusal 1) or B (2), which keeps H1 to H8.
type Test = fn(u8, &Shape) -> bool;

/// The answer of a program that tests H9 like this. A hull that it lets through is worked on as if it were a cube.
fn testing(line: &[u8], passes: Test) -> Option<Vec<u8>> {
    let right = right(line)?;
    let Some(mut given) = call(line, &right).filter(|given| given.capacity >= 4) else {
        return Some(right);
    };
    for (refusal, hull) in [(1, &mut given.a), (2, &mut given.b)] {
        match hull.broken_rule() {
            0 if passes(refusal, hull) => {}
            9 if passes(refusal, hull) => *hull = Shape::new(&block([1.0; 3])),
            _ => return Some(codec::call_answer(&empty(refusal, given.cache))),
        }
    }
    wanted::to_frame(&codec::call_frame(&given.call()))
}

/// What the line of a call asks, by the answer that is right.
pub fn call(line: &[u8], right: &[u8]) -> Option<Given> {
    if right[0] != CALL + 0x80 {
        return None;
    }
    match codec::decode(&hex::read(without_end(line))?) {
        Ok(Asked::Call(given)) => Some(given),
        _ => None,
    }
}

/// V - H/2 + F.
fn euler(hull: &Shape) -> i32 {
    let [vertices, half_edges, faces] =
        [hull.size.vertices, hull.size.half_edges, hull.size.faces].map(|count| count as i32);
    vertices - half_edges / 2 + faces
}

/// How many half-edges are reached from half-edge 0 by these links, in so many passes over all of them.
fn reached(hull: &Shape, links: &[Link], passes: usize) -> usize {
    let count = hull.size.half_edges;
    let mut reached = vec![false; count];
    reached[0] = true;
    for _ in 0..passes {
        for edge in 0..count {
            if reached[edge] {
                for &link in links {
                    reached[hull.get(edge, link)] = true;
                }
            }
        }
    }
    reached.into_iter().filter(|&reached| reached).count()
}

/// Whether all are reached by both links; this many passes are enough for any hull.
fn all_reached(hull: &Shape, passes: usize) -> bool {
    reached(hull, &[Link::Next, Link::Twin], passes) == hull.size.half_edges
}

const ENOUGH: usize = 256;

pub const FAULTS: [(&str, Answers); 12] = [
    ("H9 not tested", |line| testing(line, |_, _| true)),
    ("H9 of hull B not tested", |line| {
        testing(line, |refusal, hull| {
            refusal == 2 || (all_reached(hull, ENOUGH) && euler(hull) == 2)
        })
    }),
    ("V - H/2 + F alone", |line| {
        testing(line, |_, hull| euler(hull) == 2)
    }),
    ("half-edges reached alone", |line| {
        testing(line, |_, hull| all_reached(hull, ENOUGH))
    }),
    ("V - H/2 + F at most 2", |line| {
        testing(line, |_, hull| {
            all_reached(hull, ENOUGH) && euler(hull) <= 2
        })
    }),
    ("half-edges reached by next alone", |line| {
        testing(line, |_, hull| {
            reached(hull, &[Link::Next], ENOUGH) == hull.size.half_edges && euler(hull) == 2
        })
    }),
    ("half-edges counted twice", |line| {
        testing(line, |_, hull| {
            let counted = 2 * reached(hull, &[Link::Next, Link::Twin], ENOUGH);
            counted >= hull.size.half_edges && euler(hull) == 2
        })
    }),
    ("the flood ends after one pass", |line| {
        testing(line, |_, hull| all_reached(hull, 1) && euler(hull) == 2)
    }),
    ("the flood ends after four passes", |line| {
        testing(line, |_, hull| all_reached(hull, 4) && euler(hull) == 2)
    }),
    ("refusal 1 where B breaks H9", |line| {
        let given = call(line, &right(line)?);
        let b_breaks = given.is_some_and(|given| given.b.broken_rule() == 9);
        of_call(line, |answer| {
            if answer[STATUS] == 2 && b_breaks {
                answer[STATUS] = 1;
            }
        })
    }),
    ("H9 after the transform", |line| {
        let passed = testing(line, |_, _| true)?;
        if passed[0] == CALL + 0x80 && passed[STATUS] == 3 {
            return Some(passed);
        }
        right(line)
    }),
    ("H9 with a capacity below 4", |line| {
        let right = right(line)?;
        match call(line, &right) {
            Some(given) if given.capacity < 4 && given.a.broken_rule() == 9 => {
                Some(codec::call_answer(&empty(1, given.cache)))
            }
            _ => Some(right),
        }
    }),
];
