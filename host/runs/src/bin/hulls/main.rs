//! The proved validator beside the second one, on good hulls, on damaged hulls and on transforms.
//!
//!     hulls [SEED [COUNT]]
//!
//! COUNT scales every sort of hull. One line a sort: how many were compared, how many differ, and how often each answer,
//! 0 for a good hull or the first broken rule, was met. The run fails where an answer differs, a call runs long, an
//! answer was never met, or too little was compared: with the COUNT that is taken where none is given, 400,000 hulls, 5,000 of
//! them with the answer 9, and 2,000 good ones, 2,000 with wrong numbers and 2,000 hulls of no unit for each unit that there is.

use cases::shapes::kinds::{COMPACT, STRETCHED};
use cases::shapes::solids::Solid;
use cases::shapes::Shape;
use cases::{number_argument, Numbers};
use records::Unit;
use sort::Total;

mod breaks;
mod floats;
mod links;
mod shells;
mod sizes;
mod sort;
mod transforms;

const COUNT: u64 = 4000;

/// No run is worth its name below these. The first three go with the count.
const LEAST_HULLS: u64 = 400_000;
const LEAST_SHELLS: u64 = 5_000;
const LEAST_UNITS: u64 = 2_000;
const LEAST_TRANSFORMS: u64 = 20_000;

fn main() {
    let mut numbers = Numbers::new(number_argument(1, "SEED", 1));
    let given = number_argument(2, "COUNT", COUNT);
    let count = given as usize;
    let mut total = Total::default();
    good(&mut total, &mut numbers, count);
    shells::run(&mut total, &mut numbers, count);
    breaks::run(&mut total, &mut numbers, count);
    links::run(&mut total, &mut numbers, count);
    floats::run(&mut total, &mut numbers, count);
    sizes::run(&mut total, &mut numbers, count);
    let [least, shells, units] =
        [LEAST_HULLS, LEAST_SHELLS, LEAST_UNITS].map(|least| least * given / COUNT);
    let hulls = total.report(least, shells, units);
    let transforms = transforms::compare(&mut numbers, count);
    let mut good = hulls & transforms.report("transforms");
    if transforms.compared < LEAST_TRANSFORMS {
        eprintln!("hulls: fewer than {LEAST_TRANSFORMS} transforms were compared");
        good = false;
    }
    std::process::exit(if good { 0 } else { 1 });
}

/// Good hulls of every sort: near the origin, about it, and far from it.
fn good(total: &mut Total, n: &mut Numbers, count: usize) {
    for (name, solid) in COMPACT.into_iter().chain(STRETCHED) {
        total.sort(name, |sort| {
            for i in 0..count {
                let reach = [0.0, 10.0, 1000.0][i % 3];
                let unit = Unit::ALL[i % 4];
                let shape = Shape::any(&solid(n).placed(reach, n), n);
                sort.expect(&shape.in_unit(unit), 0);
            }
        });
    }
    total.sort("far from the origin", |sort| {
        for _ in 0..count {
            let unit = n.unit();
            sort.expect(&Shape::any(&compact(n).far(n), n).in_unit(unit), 0);
        }
    });
    total.sort("numbered as they are made", |sort| {
        for _ in 0..count / 4 {
            sort.expect(&Shape::new(&compact(n)).in_unit(n.unit()), 0);
        }
    });
}

/// A solid of any compact sort.
fn compact(n: &mut Numbers) -> Solid {
    COMPACT[n.below(COMPACT.len())].1(n)
}

/// A good hull of any compact sort in any unit, somewhere near the origin.
fn any_shape(n: &mut Numbers) -> Shape {
    let unit = n.unit();
    Shape::any(&compact(n).turned(n).placed(10.0, n), n).in_unit(unit)
}
