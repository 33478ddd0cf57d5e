//! Pairs of hulls to ask about: about each other's surfaces, at the speculative distance to the float, anywhere; good ones, and
//! ones of which some parts break a rule.

#[cfg(rust_text)]
use super::limits::{on_a_face, on_edges};
use crate::sorts::calls::given as of_pair;
use crate::steps::any::{byte, change_list, many};
#[cfg(rust_text)]
use cases::calls::more::MORE;
use cases::calls::Given;
use cases::pairs::{any, Pair};
use cases::shapes::Shape;
use cases::sorts::{acceptable, SORTS};
use cases::Numbers;
use records::{HullSize, Quat, SatCache, Transform, Unit};

pub fn given(n: &mut Numbers) -> Given {
    let unit = n.unit();
    match n.below(16) {
        0..=11 => of_pair(acceptable(laid, unit, n), SatCache::EMPTY),
        _ => refused(unit, n),
    }
}

/// Two good hulls in this unit.
fn laid(unit: Unit, n: &mut Numbers) -> Pair {
    match n.below(12) {
        #[cfg(rust_text)]
        0..=1 => on_a_face(unit, n),
        #[cfg(rust_text)]
        2..=3 => on_edges(unit, n),
        #[cfg(rust_text)]
        4..=5 => MORE[n.below(MORE.len())].1(unit, n),
        6 => any(n).in_unit(unit),
        _ => SORTS[n.below(SORTS.len())].1(unit, n),
    }
}

/// Any of hull A, hull B, unlike units and the transform is a reason to refuse, alone or beside others; now and then none is.
fn refused(unit: Unit, n: &mut Numbers) -> Given {
    let reasons = match n.below(8) {
        0..=3 => 1 << n.below(4),
        _ => n.below(16),
    };
    let [a, b, units, transform] = [0, 1, 2, 3].map(|bit| reasons >> bit & 1 == 1);
    let other = if units {
        let mut unlike = Unit::ALL.into_iter().filter(|&other| other != unit);
        unlike.nth(n.below(3)).expect("three others")
    } else {
        unit
    };
    Given::any([a, b, transform, false], [unit, other], n)
}

/// Any lists, sizes and transform: those of a question changed in one to four places, or anything.
pub fn wild(n: &mut Numbers) -> Given {
    let mut given = given(n);
    if n.below(8) > 0 {
        for _ in 0..[1, 1, 2, 4][n.below(4)] {
            change(&mut given, n);
        }
        return given;
    }
    let most = [4, 40, 400][n.below(3)];
    for side in 0..2 {
        *given.side(side) = Shape {
            numbers: many(most, Numbers::float, n),
            links: many(most, byte, n),
            size: HullSize {
                unit: word(n),
                vertices: word(n),
                half_edges: word(n),
                faces: word(n),
            },
        };
    }
    given
}

/// A number for a size: small, or any.
fn word(n: &mut Numbers) -> usize {
    [n.word() as usize, n.below(300), n.below(9)][n.below(3)]
}

/// A bit of a number, a number, a link, a size or the length of a list of one hull, or a part of the transform.
fn change(given: &mut Given, n: &mut Numbers) {
    let (word, float, other_length) = (word(n), n.float(), n.below(8) == 0);
    let Shape {
        numbers,
        links,
        size,
    } = given.side(n.below(2));
    match n.below(8) {
        0..=3 => {
            let place = n.below(numbers.len() + 1);
            if let Some(number) = numbers.get_mut(place) {
                *number = f32::from_bits(number.to_bits() ^ 1 << n.below(24));
            }
        }
        4 => change_list(numbers, float, other_length, n),
        5 => change_list(links, byte(n), other_length, n),
        6 => {
            let HullSize {
                unit,
                vertices,
                half_edges,
                faces,
            } = size;
            let sizes = [unit, vertices, half_edges, faces];
            let one = sizes.into_iter().nth(n.below(4)).expect("one of four");
            *one = word;
        }
        _ => {
            let Transform {
                p,
                q: Quat { v, s },
            } = &mut given.transform;
            let parts = [
                &mut p.x, &mut p.y, &mut p.z, &mut v.x, &mut v.y, &mut v.z, s,
            ];
            let part = parts.into_iter().nth(n.below(7)).expect("one of seven");
            *part = float;
        }
    }
}
