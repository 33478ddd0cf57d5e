//! The readings agree with each other. These tests run without the text too.

use oracle::core::{get_length_units_per_meter, with_length_units};
use oracle::math_functions::*;
use oracle::quiet;

/// Numbers from -1 to 1, the same in every run.
struct Numbers(u32);

impl Numbers {
    fn next(&mut self) -> f32 {
        self.0 ^= self.0 << 13;
        self.0 ^= self.0 >> 17;
        self.0 ^= self.0 << 5;
        (self.0 >> 8) as f32 / (1 << 23) as f32 - 1.0
    }

    fn vector(&mut self) -> Vec3 {
        Vec3 {
            x: self.next(),
            y: self.next(),
            z: self.next(),
        }
    }

    fn unit_quaternion(&mut self) -> Quat {
        loop {
            let v = self.vector();
            let s = self.next();
            let l = length_squared(v) + s * s;
            if (0.01..=1.0).contains(&l) {
                let k = 1.0 / l.sqrt();
                return Quat {
                    v: mul_sv(k, v),
                    s: k * s,
                };
            }
        }
    }
}

fn near(a: Vec3, b: Vec3) -> bool {
    let d = abs(sub(a, b));
    d.x < 1e-5 && d.y < 1e-5 && d.z < 1e-5
}

#[test]
fn matrix_and_quaternion_rotate_alike() {
    let mut numbers = Numbers(1);
    for _ in 0..10_000 {
        let q = numbers.unit_quaternion();
        let v = numbers.vector();
        let m = make_matrix_from_quat(q);
        assert!(near(mul_mv(m, v), rotate_vector(q, v)));
        assert!(near(mul_mv(transpose(m), v), inv_rotate_vector(q, v)));
    }
}

#[test]
fn transforms_invert() {
    let mut numbers = Numbers(2);
    for _ in 0..10_000 {
        let t = Transform {
            p: numbers.vector(),
            q: numbers.unit_quaternion(),
        };
        let v = numbers.vector();
        let moved = transform_point(t, v);
        assert!(near(inv_transform_point(t, moved), v));
        assert!(near(transform_point(invert_transform(t), moved), v));
    }
}

#[test]
fn quarter_turn_about_z_takes_x_to_y() {
    let half = 0.5f32.sqrt();
    let q = Quat {
        v: Vec3 {
            z: half,
            ..VEC3_ZERO
        },
        s: half,
    };
    let x = Vec3 {
        x: 1.0,
        ..VEC3_ZERO
    };
    let y = Vec3 {
        y: 1.0,
        ..VEC3_ZERO
    };
    assert!(near(rotate_vector(q, x), y));
    assert!(near(make_matrix_from_quat(q).cx, y));
}

#[test]
fn perpendicular_is_a_unit_vector_across() {
    let mut numbers = Numbers(3);
    for _ in 0..10_000 {
        let v = numbers.unit_quaternion().v;
        if length_squared(v) < 0.01 {
            continue;
        }
        let v = normalize(v);
        let across = arbitrary_perp(v);
        assert!(abs_float(dot(v, across)) < 1e-5);
        assert!(abs_float(length_squared(across) - 1.0) < 1e-5);
    }
}

#[test]
fn crossing_lines_meet_at_their_closest_points() {
    let at = |x, y, z| Vec3 { x, y, z };
    let r = line_distance(
        at(-1.0, 0.0, 0.0),
        at(2.0, 0.0, 0.0),
        at(0.0, -1.0, 3.0),
        at(0.0, 4.0, 0.0),
    );
    assert_eq!((r.point1, r.s1), (at(0.0, 0.0, 0.0), 0.5));
    assert_eq!((r.point2, r.s2), (at(0.0, 0.0, 3.0), 0.25));
    assert!(is_within_segments(&r));

    let r = line_distance(
        at(0.0, 0.0, 0.0),
        at(2.0, 0.0, 0.0),
        at(3.0, 1.0, 0.0),
        at(1.0, 0.0, 0.0),
    );
    assert_eq!((r.s1, r.s2), (1.5, 0.0));
    assert!(!is_within_segments(&r));
}

#[test]
fn quiet_catches_and_lets_through() {
    let empty: [u8; 0] = [];
    assert_eq!(quiet(|| 7), Some(7));
    assert_eq!(quiet(|| empty[std::hint::black_box(0)]), None);
    assert_eq!(
        quiet(|| (quiet(|| empty[std::hint::black_box(0)]), 7)),
        Some((None, 7))
    );
}

/// Set for the time of the work, inside other work and where it panics; and other threads keep their own.
#[test]
fn length_units_are_set_and_put_back() {
    let units = get_length_units_per_meter;
    assert_eq!(units(), 1.0);
    with_length_units(100.0, || {
        assert_eq!(units(), 100.0);
        assert_eq!(with_length_units(10.0, units), 10.0);
        let empty: [u8; 0] = [];
        let panics = || with_length_units(1000.0, || empty[std::hint::black_box(0)]);
        assert_eq!(quiet(panics), None);
        assert_eq!(units(), 100.0);
        assert_eq!(std::thread::spawn(units).join().ok(), Some(1.0));
    });
    assert_eq!(units(), 1.0);
}
