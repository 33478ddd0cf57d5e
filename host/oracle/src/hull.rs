//! The text's hull records and accessors, and the support vertex that the text asks of this module.
//! The support vertex is one reading (provisional).

use crate::distance::first_largest;
use crate::math_functions::{dot, Vec3};

include!(concat!(env!("OUT_DIR"), "/hull.rs"));

pub use types::*;

/// The lowest-numbered of the vertices with the largest `d·vertex`; padding is not looked at.
pub fn find_hull_support_vertex(hull: &HullData, direction: Vec3) -> i32 {
    let points = get_hull_points(hull).iter();
    first_largest(points.map(|&point| dot(direction, point)))
}
