//! Calls of which some parts break a rule, and the rest is good.

use super::{caches, Given};
use crate::inputs::rotation;
use crate::shapes::breaks::{break_rule, RULES};
use crate::shapes::kinds::COMPACT;
use crate::shapes::Shape;
use crate::Numbers;
use records::{Quat, Transform, Unit, Vec3};

/// What is broken: hull A, hull B, the transform, the cache.
pub type Broken = [bool; 4];

impl Given {
    /// With these broken, and hulls A and B in these units.
    pub fn any([a, b, placing, cache]: Broken, units: [Unit; 2], n: &mut Numbers) -> Given {
        let (a, b) = (hull(a, units[0], n), hull(b, units[1], n));
        let cache = if cache {
            caches::out_of_range(a.size, b.size, n)
        } else {
            caches::in_range(a.size, b.size, n)
        };
        Given {
            capacity: [4, 5, 100, i32::MAX][n.below(4)],
            a,
            b,
            transform: transform(placing, units[0], n),
            cache,
        }
    }
}

/// A good hull in this unit, or one that breaks any rule.
pub fn hull(broken: bool, unit: Unit, n: &mut Numbers) -> Shape {
    let solid = COMPACT[n.below(COMPACT.len())].1(n);
    let mut shape = Shape::any(&solid, n).in_unit(unit);
    if broken {
        break_rule(1 + n.below(RULES.into()) as u8, &mut shape, n);
    }
    shape
}

/// One that is accepted between hulls of this unit, or one that is not.
pub fn transform(broken: bool, unit: Unit, n: &mut Numbers) -> Transform {
    let mut part = || unit.farthest() * n.fraction();
    let (x, y, z) = (part(), part(), part());
    let mut t = Transform {
        p: Vec3 { x, y, z },
        q: rotation(n),
    };
    if broken {
        let Transform {
            p,
            q: Quat { v, s },
        } = &mut t;
        let parts = [
            &mut p.x, &mut p.y, &mut p.z, &mut v.x, &mut v.y, &mut v.z, s,
        ];
        let part = parts.into_iter().nth(n.below(7)).expect("one of seven");
        let beyond = [
            f32::NAN,
            f32::INFINITY,
            f32::MIN,
            unit.farthest().next_up(),
            -5e3 * unit.scale(),
        ];
        *part = beyond[n.below(beyond.len())];
    }
    t
}
