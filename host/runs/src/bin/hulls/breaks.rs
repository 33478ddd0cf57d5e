//! Each rule broken alone, and two together.

use super::{any_shape, Total};
use cases::shapes::breaks::{break_rule, RULES};
use cases::Numbers;

pub fn run(total: &mut Total, n: &mut Numbers, count: usize) {
    for rule in 1..=RULES {
        total.sort(&format!("H{rule} broken"), |sort| {
            for _ in 0..count {
                let mut shape = any_shape(n);
                break_rule(rule, &mut shape, n);
                sort.expect(&shape, rule);
            }
        });
    }
    total.sort("two rules broken", |sort| {
        let pairs = (1..=RULES).flat_map(|i| (i + 1..=RULES).map(move |j| (i, j)));
        for (first, second) in pairs {
            for _ in 0..count / 4 {
                let mut shape = any_shape(n);
                break_rule(second, &mut shape, n);
                break_rule(first, &mut shape, n);
                sort.expect(&shape, first);
            }
        }
    });
}
