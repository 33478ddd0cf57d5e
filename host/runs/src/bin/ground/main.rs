//! The ground layers beside the Rust: every vector helper beside its reading, lanes, pairs and limits beside the text.
//!
//!     ground [SEED] [COUNT]
//!
//! COUNT inputs of each sort, floats of any sort among them. A difference is shown with its input, our answer and the
//! Rust's. Without the text its part is left out, and said so.

use cases::convert::{transform as read_transform, vector as read};
use cases::inputs::{transform, vector};
use cases::{number_argument, same, Numbers, Tally};
use oracle::math_functions as reading;
use probes::{Aabb, Plane, Vec3};
use std::fmt::Debug;

#[cfg(rust_text)]
mod text;

fn main() {
    let mut numbers = Numbers::new(number_argument(1, "SEED", 1));
    let count = number_argument(2, "COUNT", 200_000);
    let mut good = true;
    good &= vectors(&mut numbers, count).report("vector helpers");
    good &= rotations(&mut numbers, count).report("rotations and transforms");
    good &= shapes(&mut numbers, count).report("planes, boxes and single numbers");
    good &= support_vertices(&mut numbers, count / 10).report("support vertices");
    good &= lines(&mut numbers, count).report("awaited helpers (stand-ins)");
    #[cfg(rust_text)]
    {
        good &= text::lanes(&mut numbers, count).report("lanes");
        good &= text::pairs().report("pairs");
        good &= text::limits().report("limits");
    }
    #[cfg(not(rust_text))]
    println!("left out, since the Rust text is not at hand: lanes, pairs, limits");
    std::process::exit(if good { 0 } else { 1 });
}

/// One comparison a row: what is compared, ours, the reading's.
fn hold_vectors(tally: &mut Tally, input: &dyn Debug, rows: &[(&str, Vec3, reading::Vec3)]) {
    for &(name, a, b) in rows {
        let equal = same(a.x, b.x) && same(a.y, b.y) && same(a.z, b.z);
        tally.compare(equal, || format!("{name} of {input:?}: {a:?}, {b:?}"));
    }
}

fn hold_numbers(tally: &mut Tally, input: &dyn Debug, rows: &[(&str, f32, f32)]) {
    for &(name, a, b) in rows {
        tally.compare(same(a, b), || format!("{name} of {input:?}: {a:?}, {b:?}"));
    }
}

fn vectors(n: &mut Numbers, count: u64) -> Tally {
    let mut t = Tally::default();
    for _ in 0..count {
        let (a, b, s) = (vector(n), vector(n), n.float());
        let (p, q) = (read(a), read(b));
        let ours = probes::vectors(a, b, s);
        let rows = [
            ("add", ours.sum, reading::add(p, q)),
            ("sub", ours.difference, reading::sub(p, q)),
            ("neg", ours.opposite, reading::neg(p)),
            ("abs", ours.size, reading::abs(p)),
            ("cross", ours.across, reading::cross(p, q)),
            ("mul_sv", ours.scaled, reading::mul_sv(s, p)),
            ("mul_add", ours.onward, reading::mul_add(p, s, q)),
            ("mul_sub", ours.back, reading::mul_sub(p, s, q)),
            ("lerp", ours.between, reading::lerp(p, q, s)),
            ("normalize", ours.unit, reading::normalize(p)),
        ];
        hold_vectors(&mut t, &(a, b, s), &rows);
        let rows = [
            ("dot", ours.along, reading::dot(p, q)),
            ("length_squared", ours.square, reading::length_squared(p)),
            ("min_float", ours.least, reading::min_float(a.x, s)),
            ("max_float", ours.greatest, reading::max_float(a.x, s)),
        ];
        hold_numbers(&mut t, &(a, b, s), &rows);
    }
    t
}

fn rotations(n: &mut Numbers, count: u64) -> Tally {
    let mut t = Tally::default();
    for _ in 0..count {
        let (x, v) = (transform(n), vector(n));
        let (r, w) = (read_transform(x), read(v));
        let ours = probes::rotations(x, v);
        let m = reading::make_matrix_from_quat(r.q);
        let columns = reading::transpose(m);
        let back = reading::inv_rotate_vector(r.q, w);
        let carried_back = reading::inv_transform_point(r, w);
        let inverse = reading::invert_transform(r);
        let rows = [
            ("mul_mv", ours.by_rows, reading::mul_mv(m, w)),
            ("transpose", ours.by_columns, reading::mul_mv(columns, w)),
            ("rotate_vector", ours.turned, reading::rotate_vector(r.q, w)),
            ("inv_rotate_vector", ours.turned_back, back),
            (
                "transform_point",
                ours.carried,
                reading::transform_point(r, w),
            ),
            ("inv_transform_point", ours.carried_back, carried_back),
            ("invert_transform p", ours.inverse.p, inverse.p),
            ("invert_transform q.v", ours.inverse.q.v, inverse.q.v),
        ];
        hold_vectors(&mut t, &(x, v), &rows);
        let rows = [("invert_transform q.s", ours.inverse.q.s, inverse.q.s)];
        hold_numbers(&mut t, &(x, v), &rows);
    }
    t
}

fn shapes(n: &mut Numbers, count: u64) -> Tally {
    let mut t = Tally::default();
    for _ in 0..count {
        let (normal, offset, p) = (vector(n), n.float(), vector(n));
        let (lower, upper) = (vector(n), vector(n));
        let plane = Plane { normal, offset };
        let ours = probes::shapes(plane, p, Aabb { lower, upper });
        let read_plane = reading::Plane {
            normal: read(normal),
            offset,
        };
        let read_box = reading::Aabb {
            lower_bound: read(lower),
            upper_bound: read(upper),
        };
        let through = reading::make_plane_from_normal_and_point(read(normal), read(p));
        let separation = reading::plane_separation(read_plane, read(p));
        let rows = [
            ("make_plane normal", ours.through.normal, through.normal),
            ("aabb_center", ours.center, reading::aabb_center(read_box)),
            (
                "aabb_extents",
                ours.extents,
                reading::aabb_extents(read_box),
            ),
        ];
        hold_vectors(&mut t, &(plane, p, lower, upper), &rows);
        let rows = [
            ("plane_separation", ours.separation, separation),
            ("make_plane offset", ours.through.offset, through.offset),
        ];
        hold_numbers(&mut t, &(plane, p), &rows);
        let along = |corner| reading::dot(read(corner), read(p));
        let farther = usize::from(along(upper) > along(lower));
        t.compare(ours.farther == farther, || {
            format!("get_point_support of {lower:?}, {upper:?} along {p:?}")
        });
        let (i, j) = (n.below(100), n.below(100));
        let least = reading::min_int(i as i32, j as i32) as usize;
        t.compare(probes::min_int(i, j) == least, || {
            format!("min_int of {i}, {j}")
        });
    }
    t
}

/// Lists of 1 to 128 vertices with ties, some with a NaN; what stands past the count is not looked at.
fn support_vertices(n: &mut Numbers, count: u64) -> Tally {
    let mut t = Tally::default();
    for _ in 0..count {
        let size = 1 + n.below(128);
        let spread = 1 + n.below(4);
        let mut list = || -> Vec<f32> {
            let coarse = |n: &mut Numbers| (n.below(2 * spread + 1) as f32) - spread as f32;
            (0..size + n.below(4))
                .map(|_| {
                    if n.below(8) == 0 {
                        n.float()
                    } else {
                        coarse(n)
                    }
                })
                .collect()
        };
        let (xs, ys, zs) = (list(), list(), list());
        let d = vector(n);
        let ours = probes::support_vertex(&xs, &ys, &zs, size, d);
        let value = |i: usize| {
            let v = reading::Vec3 {
                x: xs[i],
                y: ys[i],
                z: zs[i],
            };
            reading::dot(read(d), v)
        };
        let theirs = (1..size).fold(0, |best, i| if value(i) > value(best) { i } else { best });
        t.compare(ours == theirs, || {
            format!("support vertex of {xs:?} {ys:?} {zs:?} along {d:?}: {ours}, {theirs}")
        });
    }
    t
}

fn lines(n: &mut Numbers, count: u64) -> Tally {
    let mut t = Tally::default();
    for _ in 0..count {
        let (p1, d1, p2, d2) = (vector(n), vector(n), vector(n), vector(n));
        let input = (p1, d1, p2, d2);
        let ours = probes::lines(p1, d1, p2, d2);
        let line = reading::line_distance(read(p1), read(d1), read(p2), read(d2));
        let rows = [
            (
                "arbitrary_perp",
                ours.perp,
                reading::arbitrary_perp(read(p1)),
            ),
            ("line_distance point1", ours.point1, line.point1),
            ("line_distance point2", ours.point2, line.point2),
        ];
        hold_vectors(&mut t, &input, &rows);
        let rows = [
            ("line_distance s1", ours.s1, line.s1),
            ("line_distance s2", ours.s2, line.s2),
        ];
        hold_numbers(&mut t, &input, &rows);
        let within = reading::is_within_segments(&line);
        t.compare(ours.within == within, || {
            format!("is_within_segments of {input:?}")
        });
    }
    t
}
