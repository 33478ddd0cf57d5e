//! Calls about length units: each length that goes by the unit at its limit and a float either side, units that there are not,
//! and hulls of unlike units.

use super::calls::{any_given, frame, given};
use super::Named;
use crate::codec::{call_frame, HULL_A, UNIT_AND_SIZES};
use crate::Frame;
use cases::calls::broken::{hull, transform};
use cases::calls::{caches, Given};
use cases::pairs::{normal, on_block, placed, vertex, Pair};
use cases::shapes::breaks::{break_rule, RULES};
use cases::shapes::solids::{block, frustum, polygon, pyramid};
use cases::shapes::{Link, Shape};
use cases::sorts::{about, across, roof};
use cases::Numbers;
use oracle::math_functions::{Quat, Transform, Vec3, VEC3_ZERO};
use records::{SatCache, Unit};

pub const SORTS: [Named; 7] = [
    ("limits of each unit", limits),
    ("the slop of each unit", slop),
    ("the speculative distance of each unit", speculative),
    ("faces as wide as the speculative distance", small_faces),
    ("unknown units", unknown),
    ("unlike units, beside other faults", unlike),
    ("bytes of units changed", bytes_changed),
];

/// How many cases the first six of them have. Each is dealt to another unit in each round of them, so that four rounds have all.
pub const CASES: [usize; 6] = [
    3 * LIMITS.len(),
    3 * 2 * AXES.len(),
    3 * AT_SPECULATIVE.len(),
    RADII.len(),
    2 * UNKNOWN.len(),
    16,
];

/// Which of the cases it is, and in which unit.
fn dealt(turn: usize, cases: usize) -> (usize, Unit) {
    let case = turn % cases;
    (case, Unit::ALL[(case + turn / cases) % Unit::ALL.len()])
}

/// A length that has a limit, and how it is put into a hull of a call, or into its transform.
type Limit = (fn(Unit) -> f32, fn(&mut Given, usize, f32, &mut Numbers));

const LIMITS: [Limit; 8] = [
    (Unit::farthest, put_coordinate),
    (Unit::farthest, put_box_side),
    (Unit::farthest, put_padding),
    (Unit::farthest_offset, put_offset),
    (Unit::shortest_edge, put_edge),
    (Unit::farthest, |given, _, x, _| given.transform.p.x = x),
    (Unit::farthest, |given, _, y, _| given.transform.p.y = y),
    (Unit::farthest, |given, _, z, _| given.transform.p.z = z),
];

/// Each of them in turn at its limit, a float above and a float below, either way; all else is good.
fn limits(turn: usize, n: &mut Numbers) -> Vec<Frame> {
    let (case, unit) = dealt(turn, CASES[0]);
    let (limit, put) = LIMITS[case / 3];
    let x = about(limit(unit))[case % 3];
    let mut given = two_pyramids(n).in_unit(unit);
    put(&mut given, n.below(2), [x, -x][n.below(2)], n);
    vec![frame(&given)]
}

/// Laid or set on each other, with padding lanes in both.
fn two_pyramids(n: &mut Numbers) -> Given {
    let [a, b] = [0; 2].map(|_| Shape::any(&pyramid(4, n.between(0.5, 2.0), 1.0), n));
    let pair = placed(a, b, n);
    let cache = caches::in_range(pair.a.size, pair.b.size, n);
    given(pair, cache)
}

/// The box reaches just as far.
fn put_coordinate(given: &mut Given, side: usize, x: f32, n: &mut Numbers) {
    let shape = given.side(side);
    let (axis, vertex) = (n.below(3), n.below(shape.size.vertices));
    let place = shape.coordinate(axis, vertex);
    shape.numbers[place] = x;
    put_end(shape, axis, x);
}

/// The box reaches farther than the hull.
fn put_box_side(given: &mut Given, side: usize, x: f32, n: &mut Numbers) {
    put_end(given.side(side), n.below(3), x);
}

fn put_end(shape: &mut Shape, axis: usize, x: f32) {
    let end = if x < 0.0 { axis } else { 3 + axis };
    shape.numbers[end] = x;
}

fn put_padding(given: &mut Given, side: usize, x: f32, n: &mut Numbers) {
    let shape = given.side(side);
    let vertices = shape.size.vertices;
    let lane = vertices + n.below(vertices.next_multiple_of(4) - vertices);
    let place = shape.coordinate(n.below(3), lane);
    shape.numbers[place] = x;
}

fn put_offset(given: &mut Given, side: usize, x: f32, n: &mut Numbers) {
    let shape = given.side(side);
    let place = shape.plane(n.below(shape.size.faces)) + 3;
    shape.numbers[place] = x;
}

/// The ends of an edge lie so far apart along an axis, and not at all along the others.
fn put_edge(given: &mut Given, side: usize, x: f32, n: &mut Numbers) {
    let shape = given.side(side);
    let (edge, along) = (n.below(shape.size.half_edges), n.below(3));
    for (end, length) in [(edge, 0.0), (edge ^ 1, x)] {
        let vertex = shape.get(end, Link::Origin);
        for axis in 0..3 {
            let place = shape.coordinate(axis, vertex);
            shape.numbers[place] = if axis == along { length } else { 0.0 };
        }
    }
    shape.fit_box();
}

/// The types of a cache that name an axis: a face of A, a face of B, a pair of edges.
const AXES: [u8; 3] = [2, 3, 4];

/// Each kind of cached axis in turn. The two touch, and the cached separation differs from that by the slop, or by a float more or
/// less, either way.
fn slop(turn: usize, n: &mut Numbers) -> Vec<Frame> {
    let (case, unit) = dealt(turn, CASES[1]);
    let slop = about(unit.slop())[case % 3];
    let separation = [slop, -slop][case / 3 % 2];
    vec![apart(AXES[case / 6], 0.0, separation, unit, n)]
}

/// Cached axes, and the search for a face and for a pair of edges.
const AT_SPECULATIVE: [(Features, u8); 5] = [
    (Features::Faces, 0),
    (Features::Edges, 0),
    (Features::Faces, 2),
    (Features::Faces, 3),
    (Features::Edges, 4),
];

/// Each of them in turn; the two are apart by just the speculative distance, or by a float more or less.
fn speculative(turn: usize, n: &mut Numbers) -> Vec<Frame> {
    let (case, unit) = dealt(turn, CASES[2]);
    let distance = about(unit.speculative_distance())[case % 3];
    let (features, kind) = AT_SPECULATIVE[case / 3];
    let separation = [distance, 0.0][n.below(2)];
    vec![apart_by(features, kind, distance, separation, unit, n)]
}

/// What of the two hulls is nearest.
#[derive(Clone, Copy)]
enum Features {
    Faces,
    Edges,
}

/// Along the axis that a cache of this type names.
fn apart(kind: u8, by: f32, separation: f32, unit: Unit, n: &mut Numbers) -> Frame {
    let features = if kind == 4 {
        Features::Edges
    } else {
        Features::Faces
    };
    apart_by(features, kind, by, separation, unit, n)
}

/// Two blocks face to face, or two roofs ridge to ridge across each other, so far apart along x; the cache names the two faces or
/// the two ridges.
fn apart_by(
    features: Features,
    kind: u8,
    by: f32,
    separation: f32,
    unit: Unit,
    n: &mut Numbers,
) -> Frame {
    let solids = match features {
        Features::Faces => {
            let half = n.between(0.1, 2.0);
            [-half, half].map(|middle| block([half; 3]).moved([middle, 0.0, 0.0]))
        }
        Features::Edges => [roof(n), across(roof(n))],
    };
    let [a, b] = solids.map(|solid| Shape::any(&solid, n).in_unit(unit));
    let (index_a, index_b) = match features {
        Features::Faces => (face_towards(&a, 1.0), face_towards(&b, -1.0)),
        Features::Edges => (ridge(&a), ridge(&b)),
    };
    let cache = SatCache {
        separation: separation.to_bits(),
        kind,
        index_a: index_a as u8,
        index_b: index_b as u8,
        ..SatCache::EMPTY
    };
    let transform = Transform {
        p: Vec3 { x: by, ..VEC3_ZERO },
        q: Quat {
            v: VEC3_ZERO,
            s: 1.0,
        },
    };
    frame(&given(Pair { a, b, transform }, cache))
}

/// The block's face that looks along x, or against it.
fn face_towards(shape: &Shape, x: f32) -> usize {
    let mut faces = 0..shape.size.faces;
    let found = faces.find(|&face| normal(shape, face).x == x);
    found.expect("a block has such a face")
}

/// The roof's edge at x = 0.
fn ridge(shape: &Shape) -> usize {
    let at_zero = |edge| vertex(shape, shape.get(edge, Link::Origin)).x == 0.0;
    let mut edges = (0..shape.size.half_edges).step_by(2);
    let found = edges.find(|&edge| at_zero(edge) && at_zero(edge + 1));
    found.expect("a roof has a ridge")
}

/// Of a face that stands on a larger one, as parts of the speculative distance.
const RADII: [f64; 6] = [0.3, 0.5, 0.8, 1.2, 2.0, 4.0];

/// A prism of eight sides stands on a block, or the block on the prism: of the eight candidates none to four are picked, since
/// those nearer to each other than the speculative distance count as one.
fn small_faces(turn: usize, n: &mut Numbers) -> Vec<Frame> {
    let (case, unit) = dealt(turn, CASES[3]);
    let radius = RADII[case] * f64::from(Unit::Metres.speculative_distance());
    let top = Shape::any(&block([1.0, 1.0, 0.5]), n);
    let prism = Shape::any(&frustum(&polygon(8, radius), 1.0, 0.2), n);
    let [x, y] = [0; 2].map(|_| 0.5 * n.fraction());
    let z = 0.6 + 0.01 * n.fraction();
    let angle = 3.0 * n.fraction();
    let pair = on_block(top, prism, Vec3 { x, y, z }, angle, n);
    vec![frame(&given(pair.in_unit(unit), SatCache::EMPTY))]
}

/// Those that other sorts have are among `UNKNOWN_UNITS` of the breaks.
const UNKNOWN: [usize; 5] = [0, 2, 5, 10_000, 65_535];

/// Each of hull A and of hull B in turn. The other hull is good in any unit, and the rest is good or not.
fn unknown(turn: usize, n: &mut Numbers) -> Vec<Frame> {
    let (case, unit) = dealt(turn, CASES[4]);
    let broken = [false, false, n.below(2) == 0, n.below(2) == 0];
    let mut given = Given::any(broken, [unit; 2], n);
    given.side(case / UNKNOWN.len()).size.unit = UNKNOWN[case % UNKNOWN.len()];
    vec![frame(&given)]
}

/// Beside each set of hull A, hull B, the transform and the cache that break a rule, in turn. Some hulls are good in their own
/// unit and not in the other's. Some capacities are below 4, where nothing is looked at.
fn unlike(turn: usize, n: &mut Numbers) -> Vec<Frame> {
    let (set, unit) = dealt(turn, CASES[5]);
    let broken = [0, 1, 2, 3].map(|bit| set >> bit & 1 == 1);
    let other = loop {
        let other = n.unit();
        if other != unit {
            break other;
        }
    };
    let [a, b] = [unit, other].map(|unit| match n.below(2) {
        0 => hull(false, unit, n),
        _ => Shape::any(&pyramid(4, 1.0, 1.0), n).in_unit(unit),
    });
    let cache = match broken[3] {
        true => caches::out_of_range(a.size, b.size, n),
        false => caches::in_range(a.size, b.size, n),
    };
    let mut given = Given {
        capacity: [4, 4, 4, 5, i32::MAX, 3][n.below(6)],
        a,
        b,
        transform: transform(broken[2], unit, n),
        cache,
    };
    for (side, broken) in broken.into_iter().take(2).enumerate() {
        if broken {
            break_rule(
                2 + n.below(usize::from(RULES) - 1) as u8,
                given.side(side),
                n,
            );
        } else {
            at_own_limit(&mut given, side, n);
        }
    }
    vec![frame(&given)]
}

/// One hull with a length that its own unit just allows, or as it is.
fn at_own_limit(given: &mut Given, side: usize, n: &mut Numbers) {
    let unit = given.side(side).unit();
    let before = given.side(side).clone();
    match n.below(4) {
        0 => put_coordinate(given, side, unit.farthest(), n),
        1 => put_offset(given, side, unit.farthest_offset(), n),
        2 => put_edge(given, side, unit.shortest_edge(), n),
        _ => {}
    }
    // Another edge may have become too short.
    if given.side(side).broken_rule() != 0 {
        *given.side(side) = before;
    }
}

/// One byte of a unit other than it was, in a frame of the right length or not: what the length is to be follows from the sizes
/// alone.
fn bytes_changed(turn: usize, n: &mut Numbers) -> Vec<Frame> {
    let unit = n.unit();
    let given = any_given(n).in_unit(unit);
    let mut bytes = call_frame(&given.call());
    let size = given.a.size;
    let (numbers, links) = (size.numbers(), size.links());
    let hull_b = HULL_A + UNIT_AND_SIZES + 4 * numbers.expect("small") + links.expect("small");
    let place = [HULL_A, hull_b][turn % 2] + turn / 2 % 2;
    let mut others: Vec<u8> = vec![0, n.word() as u8, bytes[place] ^ 1 << n.below(8)];
    others.extend(Unit::ALL.map(|unit| (unit.per_metre() as u16).to_be_bytes()[turn / 2 % 2]));
    bytes[place] = others[n.below(others.len())];
    match n.below(4) {
        0 => bytes.truncate(bytes.len() - 1 - n.below(4)),
        1 => bytes.resize(bytes.len() + 1 + n.below(4), n.word() as u8),
        _ => {}
    }
    vec![Frame::Bytes(bytes)]
}
