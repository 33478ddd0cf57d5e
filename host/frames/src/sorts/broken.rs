//! Calls with something that breaks a rule.

use super::calls::{any_given, frame};
use crate::Frame;
use cases::calls::broken::hull;
use cases::calls::{caches, Given};
use cases::shapes::breaks::{break_rule, RULES};
use cases::shapes::Shape;
use cases::Numbers;
use records::Unit;

/// A hull of which `change` broke something, as A or as B.
fn with_hull(turn: usize, n: &mut Numbers, change: impl FnOnce(&mut Shape, &mut Numbers)) -> Frame {
    let mut given = any_given(n);
    let mut shape = hull(false, Unit::Metres, n);
    change(&mut shape, n);
    given.cache = caches::in_range(given.a.size, given.b.size, n);
    *given.side(turn) = shape;
    frame(&given)
}

/// Each of H1 to H9 in turn.
pub fn one_rule(turn: usize, n: &mut Numbers) -> Vec<Frame> {
    let rule = (1..=RULES).cycle().nth(turn / 2).expect("it goes round");
    let broken = |_| with_hull(turn, n, |shape, n| break_rule(rule, shape, n));
    [0; 2].map(broken).to_vec()
}

/// Each two of them in turn: a break keeps every rule before its own.
pub fn two_rules(turn: usize, n: &mut Numbers) -> Vec<Frame> {
    let after = |first| (first + 1..=RULES).map(move |second| (first, second));
    let pairs: Vec<(u8, u8)> = (1..=RULES).flat_map(after).collect();
    let (first, second) = pairs[turn / 2 % pairs.len()];
    vec![with_hull(turn, n, |shape, n| {
        break_rule(second, shape, n);
        break_rule(first, shape, n);
    })]
}

/// Hull A, hull B, the transform and the cache, each alone and any of them together.
pub fn refusals(turn: usize, n: &mut Numbers) -> Vec<Frame> {
    let set = 1 + turn % 15;
    let broken = [0, 1, 2, 3].map(|bit| set >> bit & 1 == 1);
    vec![frame(&Given::any(broken, [Unit::Metres; 2], n))]
}

/// One to three floats of a good call, each any float or a NaN with any bits; and whether the call is accepted after it
/// is as it comes.
pub fn floats(_: usize, n: &mut Numbers) -> Vec<Frame> {
    let any = |n: &mut Numbers| match n.below(4) {
        0 => f32::from_bits(n.word() as u32 | 0x7f80_0001),
        1 => [f32::INFINITY, f32::NEG_INFINITY, -0.0][n.below(3)],
        _ => n.float(),
    };
    let mut one = || {
        let mut given = any_given(n);
        for _ in 0..1 + n.below(3) {
            let place = n.below(3);
            let float = match place {
                0 | 1 => {
                    let hull = given.side(place);
                    let count = hull.numbers.len();
                    &mut hull.numbers[n.below(count)]
                }
                _ => {
                    let t = &mut given.transform;
                    let (p, q) = (&mut t.p, &mut t.q);
                    let parts = [
                        &mut p.x, &mut p.y, &mut p.z, &mut q.v.x, &mut q.v.y, &mut q.v.z, &mut q.s,
                    ];
                    parts.into_iter().nth(n.below(7)).expect("one of seven")
                }
            };
            *float = any(n);
        }
        frame(&given)
    };
    vec![one(), one(), one(), one()]
}
