//! Vectors and transforms.

use crate::Numbers;
use records::{Quat, Transform, Vec3};

/// Floats of any sort.
pub fn vector(n: &mut Numbers) -> Vec3 {
    let (x, y, z) = (n.float(), n.float(), n.float());
    Vec3 { x, y, z }
}

/// Most are near a unit quaternion, some are anything.
pub fn transform(n: &mut Numbers) -> Transform {
    let p = vector(n);
    if n.below(4) == 0 {
        return Transform {
            p,
            q: Quat {
                v: vector(n),
                s: n.float(),
            },
        };
    }
    Transform { p, q: rotation(n) }
}

/// Any turn, near a unit quaternion.
pub fn rotation(n: &mut Numbers) -> Quat {
    let (x, y, z, s) = (n.fraction(), n.fraction(), n.fraction(), n.fraction());
    let l = (x * x + y * y + z * z + s * s).sqrt();
    Quat {
        v: Vec3 {
            x: x / l,
            y: y / l,
            z: z / l,
        },
        s: s / l,
    }
}

/// A vector rounded from larger floats.
pub fn rounded(v: [f64; 3]) -> Vec3 {
    let [x, y, z] = v.map(|x| x as f32);
    Vec3 { x, y, z }
}
