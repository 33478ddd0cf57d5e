//! What the text asks of `crate::geometry`: of a capsule it reads the two centres.

use crate::math_functions::Vec3;

#[derive(Debug, Clone, Copy, PartialEq)]
pub struct Capsule {
    pub center1: Vec3,
    pub center2: Vec3,
}
