//! The vector and transform functions that the text leans on and does not hold. These are one reading (provisional) of
//! them: every `+ - * /` is one rounded binary32 operation in the order written, and nothing is fused.

pub use crate::awaited::{arbitrary_perp, is_within_segments, line_distance, LineDistance};

pub const PI: f32 = std::f32::consts::PI;

#[derive(Debug, Clone, Copy, PartialEq, Default)]
pub struct Vec3 {
    pub x: f32,
    pub y: f32,
    pub z: f32,
}

pub const VEC3_ZERO: Vec3 = Vec3 {
    x: 0.0,
    y: 0.0,
    z: 0.0,
};

/// A rotation; `s` is the scalar part.
#[derive(Debug, Clone, Copy, PartialEq)]
pub struct Quat {
    pub v: Vec3,
    pub s: f32,
}

/// Rotation `q`, then translation `p`.
#[derive(Debug, Clone, Copy, PartialEq)]
pub struct Transform {
    pub p: Vec3,
    pub q: Quat,
}

/// Three columns.
#[derive(Debug, Clone, Copy, PartialEq)]
pub struct Matrix3 {
    pub cx: Vec3,
    pub cy: Vec3,
    pub cz: Vec3,
}

pub const MAT3_ZERO: Matrix3 = Matrix3 {
    cx: VEC3_ZERO,
    cy: VEC3_ZERO,
    cz: VEC3_ZERO,
};

/// The points `p` with `normal·p = offset`.
#[derive(Debug, Clone, Copy, PartialEq)]
pub struct Plane {
    pub normal: Vec3,
    pub offset: f32,
}

#[derive(Debug, Clone, Copy, PartialEq, Default)]
pub struct Aabb {
    pub lower_bound: Vec3,
    pub upper_bound: Vec3,
}

// By component.

#[inline]
pub fn add(a: Vec3, b: Vec3) -> Vec3 {
    Vec3 {
        x: a.x + b.x,
        y: a.y + b.y,
        z: a.z + b.z,
    }
}

#[inline]
pub fn sub(a: Vec3, b: Vec3) -> Vec3 {
    Vec3 {
        x: a.x - b.x,
        y: a.y - b.y,
        z: a.z - b.z,
    }
}

#[inline]
pub fn neg(a: Vec3) -> Vec3 {
    Vec3 {
        x: -a.x,
        y: -a.y,
        z: -a.z,
    }
}

// Magnitudes: a zero keeps its sign.

#[inline]
pub fn abs_float(a: f32) -> f32 {
    if a < 0.0 {
        -a
    } else {
        a
    }
}

#[inline]
pub fn abs(v: Vec3) -> Vec3 {
    Vec3 {
        x: abs_float(v.x),
        y: abs_float(v.y),
        z: abs_float(v.z),
    }
}

// Smaller and larger: `b` on a tie and on a NaN.

#[inline]
pub fn min_float(a: f32, b: f32) -> f32 {
    if a < b {
        a
    } else {
        b
    }
}

#[inline]
pub fn max_float(a: f32, b: f32) -> f32 {
    if a > b {
        a
    } else {
        b
    }
}

#[inline]
pub fn min_int(a: i32, b: i32) -> i32 {
    if a < b {
        a
    } else {
        b
    }
}

// Products: sums go left to right over x, y, z.

#[inline]
pub fn dot(a: Vec3, b: Vec3) -> f32 {
    (a.x * b.x + a.y * b.y) + a.z * b.z
}

#[inline]
pub fn cross(a: Vec3, b: Vec3) -> Vec3 {
    Vec3 {
        x: a.y * b.z - a.z * b.y,
        y: a.z * b.x - a.x * b.z,
        z: a.x * b.y - a.y * b.x,
    }
}

#[inline]
pub fn length_squared(v: Vec3) -> f32 {
    (v.x * v.x + v.y * v.y) + v.z * v.z
}

// A number times a vector, alone and beside another.

#[inline]
pub fn mul_sv(s: f32, v: Vec3) -> Vec3 {
    Vec3 {
        x: s * v.x,
        y: s * v.y,
        z: s * v.z,
    }
}

/// `a + s*b`
#[inline]
pub fn mul_add(a: Vec3, s: f32, b: Vec3) -> Vec3 {
    Vec3 {
        x: a.x + s * b.x,
        y: a.y + s * b.y,
        z: a.z + s * b.z,
    }
}

/// `a - s*b`
#[inline]
pub fn mul_sub(a: Vec3, s: f32, b: Vec3) -> Vec3 {
    Vec3 {
        x: a.x - s * b.x,
        y: a.y - s * b.y,
        z: a.z - s * b.z,
    }
}

/// `(1 - t)*a + t*b`
#[inline]
pub fn lerp(a: Vec3, b: Vec3, t: f32) -> Vec3 {
    let s = 1.0 - t;
    Vec3 {
        x: s * a.x + t * b.x,
        y: s * a.y + t * b.y,
        z: s * a.z + t * b.z,
    }
}

// Unit length: times the reciprocal of the root; zero where the vector is too short.

#[inline]
pub fn normalize(v: Vec3) -> Vec3 {
    let l = length_squared(v);
    if l > 1000.0 * f32::MIN_POSITIVE {
        mul_sv(1.0 / l.sqrt(), v)
    } else {
        VEC3_ZERO
    }
}

// Matrices: the reading gives rows, the record holds columns.

#[inline]
pub fn make_matrix_from_quat(q: Quat) -> Matrix3 {
    let Vec3 { x, y, z } = q.v;
    let w = q.s;
    let (xx, yy, zz) = (x * x, y * y, z * z);
    let (xy, xz, yz) = (x * y, x * z, y * z);
    let (xw, yw, zw) = (x * w, y * w, z * w);
    Matrix3 {
        cx: Vec3 {
            x: 1.0 - 2.0 * (yy + zz),
            y: 2.0 * (xy + zw),
            z: 2.0 * (xz - yw),
        },
        cy: Vec3 {
            x: 2.0 * (xy - zw),
            y: 1.0 - 2.0 * (xx + zz),
            z: 2.0 * (yz + xw),
        },
        cz: Vec3 {
            x: 2.0 * (xz + yw),
            y: 2.0 * (yz - xw),
            z: 1.0 - 2.0 * (xx + yy),
        },
    }
}

#[inline]
pub fn transpose(m: Matrix3) -> Matrix3 {
    Matrix3 {
        cx: Vec3 {
            x: m.cx.x,
            y: m.cy.x,
            z: m.cz.x,
        },
        cy: Vec3 {
            x: m.cx.y,
            y: m.cy.y,
            z: m.cz.y,
        },
        cz: Vec3 {
            x: m.cx.z,
            y: m.cy.z,
            z: m.cz.z,
        },
    }
}

/// Each row: `(m0*x + m1*y) + m2*z`
#[inline]
pub fn mul_mv(m: Matrix3, v: Vec3) -> Vec3 {
    Vec3 {
        x: (m.cx.x * v.x + m.cy.x * v.y) + m.cz.x * v.z,
        y: (m.cx.y * v.x + m.cy.y * v.y) + m.cz.y * v.z,
        z: (m.cx.z * v.x + m.cy.z * v.y) + m.cz.z * v.z,
    }
}

// Rotations by the quaternion itself; they differ from the matrix's in their last bits.

#[inline]
pub fn rotate_vector(q: Quat, v: Vec3) -> Vec3 {
    let t1 = cross(q.v, v);
    let t2 = mul_add(t1, q.s, v);
    let t3 = cross(q.v, t2);
    mul_add(v, 2.0, t3)
}

#[inline]
pub fn inv_rotate_vector(q: Quat, v: Vec3) -> Vec3 {
    let t1 = cross(q.v, v);
    let t2 = mul_sub(t1, q.s, v);
    let t3 = cross(q.v, t2);
    mul_add(v, 2.0, t3)
}

// Transforms.

#[inline]
pub fn transform_point(t: Transform, v: Vec3) -> Vec3 {
    add(rotate_vector(t.q, v), t.p)
}

#[inline]
pub fn inv_transform_point(t: Transform, v: Vec3) -> Vec3 {
    inv_rotate_vector(t.q, sub(v, t.p))
}

#[inline]
pub fn invert_transform(t: Transform) -> Transform {
    Transform {
        p: inv_rotate_vector(t.q, neg(t.p)),
        q: Quat {
            v: neg(t.q.v),
            s: t.q.s,
        },
    }
}

// Planes.

#[inline]
pub fn plane_separation(plane: Plane, p: Vec3) -> f32 {
    dot(plane.normal, p) - plane.offset
}

#[inline]
pub fn make_plane_from_normal_and_point(normal: Vec3, p: Vec3) -> Plane {
    Plane {
        normal,
        offset: dot(normal, p),
    }
}

// Boxes: middle, and half of each side.

#[inline]
pub fn aabb_center(b: Aabb) -> Vec3 {
    mul_sv(0.5, add(b.lower_bound, b.upper_bound))
}

#[inline]
pub fn aabb_extents(b: Aabb) -> Vec3 {
    mul_sv(0.5, sub(b.upper_bound, b.lower_bound))
}
