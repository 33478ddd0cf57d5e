//! What the text asks of `crate::distance`, one reading (provisional), and the search that it shares with `crate::hull`.

use crate::math_functions::{dot, Vec3};

/// The lowest-numbered point with the largest `point·d`.
pub fn get_point_support(points: &[Vec3], direction: Vec3) -> i32 {
    first_largest(points.iter().map(|&point| dot(point, direction)))
}

/// The place of the largest value, the lowest of them on a tie. There is at least one.
pub(crate) fn first_largest(mut values: impl Iterator<Item = f32>) -> i32 {
    let mut best = 0;
    let mut most = values.next().expect("a value");
    for (index, value) in (1..).zip(values) {
        if value > most {
            best = index;
            most = value;
        }
    }
    best
}
