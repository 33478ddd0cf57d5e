//! Several shells in one record, and shells with holes.

use super::links::every_byte;
use super::{any_shape, Total};
use cases::shapes::breaks::shells;
use cases::shapes::kinds::SHELLS;
use cases::shapes::Shape;
use cases::Numbers;

pub fn run(total: &mut Total, n: &mut Numbers, count: usize) {
    for kind in &SHELLS {
        total.sort(kind.name, |sort| {
            for i in 0..count {
                let reach = [0.0, 10.0, 1000.0][i % 3];
                let solid = (kind.solid)(n).placed(reach, n);
                sort.expect(&Shape::any(&solid, n).in_unit(n.unit()), 9);
            }
        });
    }
    total.sort("shells numbered as they are made", |sort| {
        for i in 0..count / 4 {
            let solid = (SHELLS[i % SHELLS.len()].solid)(n);
            sort.expect(&Shape::new(&solid).in_unit(n.unit()), 9);
        }
    });
    total.sort("a tetrahedron beside a hull, each pair first", |sort| {
        for _ in 0..count.div_ceil(100) {
            let mut shape = any_shape(n);
            while !shells::tetrahedron_beside(&mut shape, n) {
                shape = any_shape(n);
            }
            each_pair_first(&shape, |shape| sort.expect(shape, 9));
        }
    });
    total.sort("one shell, each pair first", |sort| {
        for _ in 0..count.div_ceil(100) {
            each_pair_first(&any_shape(n), |shape| sort.expect(shape, 0));
        }
    });
    total.sort("every byte of the links of shells", |sort| {
        for i in 0..count.div_ceil(300) {
            let solid = (SHELLS[i % SHELLS.len()].solid)(n);
            every_byte(&Shape::any(&solid, n), n, |shape| sort.hold(shape));
        }
    });
}

/// The hull with each pair of half-edges in turn exchanged with the first one, from which every other has to be reached.
fn each_pair_first(shape: &Shape, mut hold: impl FnMut(&Shape)) {
    for pair in 0..shape.size.half_edges / 2 {
        let exchanged = |edge: usize| match edge / 2 {
            0 => edge + 2 * pair,
            own if own == pair => edge - 2 * pair,
            _ => edge,
        };
        hold(&shape.with_edges_renumbered(exchanged));
    }
}
