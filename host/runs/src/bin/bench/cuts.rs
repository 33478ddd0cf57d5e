//! Cuts, reductions and the candidates of a face contact beside the Rust text. Each is lent its lists. Reductions are
//! timed inside the library, round after round on one input, as the routine itself calls them, and once more a call each;
//! the text's side is a call through a door that is not inlined. Ours makes the images where it reads them, the text is
//! handed them. How many corners or points come out is the same on both sides.

use super::{head, line, timed};
use cases::convert;
use cases::inputs::rounded;
use cases::shapes::solids::{block, frame, frustum, polygon};
use cases::shapes::Shape;
use cases::Numbers;
use oracle::hull::HullData;
use oracle::math_functions::{self as reading, dot};
use oracle::open::{search, Buffers, LocalManifoldPoint, Prepared};
use oracle::transcribed::FaceCuts;
use probes::{Accepted, ClipVertex, FeaturePair, Kept, Places, Plane, Quat, Transform, Unit, Vec3};
use runs::{corners, images};
use std::cell::RefCell;
use std::f64::consts::TAU;

/// So many inputs in turn stay in the nearest cache.
const INPUTS: usize = 12;

/// So many calls on an input before the next.
const ROUNDS: usize = 32;

/// The half-edge that cuts.
const EDGE: u8 = 9;

const METRES: usize = Unit::Metres.per_metre();

pub fn run(numbers: &mut Numbers) {
    head("a cut", "Rust text");
    for corners in [4, 6, 8, 12, 16, 32] {
        cuts(corners, numbers);
    }
    for (rounds, how) in [(ROUNDS, "inside"), (1, "a call each")] {
        head(&format!("a reduction, {how}"), "Rust text");
        for candidates in [5, 8, 16, 32, 60] {
            reductions(candidates, rounds, numbers);
        }
    }
    head("the candidates of a face contact", "Rust text");
    let log = Shape::new(&frustum(&polygon(12, 0.3), 1.0, 6.0));
    let cube = Shape::new(&block([1.0; 3]));
    candidates("log, side on side", &log, side_on_side, numbers);
    candidates("log, end on side", &log, end_on_side, numbers);
    candidates("cube on cube", &cube, cube_on_cube, numbers);
}

/// Both sides in turn, once to see that they agree and then timed; each does so many rounds on an input.
fn both<T>(
    what: &str,
    rounds: usize,
    inputs: &[T],
    mut ours: impl FnMut(&T) -> usize,
    mut theirs: impl FnMut(&T) -> i32,
) {
    let mut theirs = |input: &T| theirs(input) as usize;
    for input in inputs {
        assert_eq!(ours(input), theirs(input), "{what}");
    }
    let (mut a, mut b) = (0, 0);
    line(
        what,
        || add(&mut a, timed(inputs, &mut ours)) / rounds as f64,
        || add(&mut b, timed(inputs, &mut theirs)) / rounds as f64,
    );
    assert_eq!(a, b, "{what}");
}

fn add(sum: &mut usize, (nanoseconds, answers): (f64, usize)) -> f64 {
    *sum += answers;
    nanoseconds
}

/// Corners round a circle in a plane at any tilt, a little apart from even; and that plane.
fn round(size: usize, n: &mut Numbers) -> (Vec<ClipVertex>, Plane) {
    let [u, v, w] = frame(n);
    let corners = (0..size)
        .map(|i| {
            let angle = TAU * (i as f64 + n.between(0.0, 0.5)) / size as f64;
            let (x, y) = (angle.cos(), angle.sin());
            let index = i as u8;
            ClipVertex {
                position: rounded([0, 1, 2].map(|axis| x * u[axis] + y * v[axis])),
                separation: n.between(-0.02, 0.0) as f32,
                pair: FeaturePair {
                    owner1: 1,
                    index1: index,
                    owner2: 1,
                    index2: index + 1,
                },
            }
        })
        .collect();
    let reference = Plane {
        normal: rounded(w),
        offset: 0.0,
    };
    (corners, reference)
}

struct Cut {
    places: RefCell<Places>,
    prepared: Prepared,
    plane: Plane,
    reference: Plane,
}

/// A third of the planes go through the middle, a third take one corner off, a third keep all.
fn cuts(size: usize, n: &mut Numbers) {
    let inputs: Vec<Cut> = (0..INPUTS)
        .map(|i| {
            let (corners, reference) = round(size, n);
            let outward = corners[n.below(size)].position;
            let height =
                |v: &ClipVertex| dot(convert::vector(outward), convert::vector(v.position));
            let mut heights: Vec<f32> = corners.iter().map(height).collect();
            heights.sort_by(f32::total_cmp);
            let (high, second) = (heights[size - 1], heights[size - 2]);
            Cut {
                places: RefCell::new(Places::new(&corners)),
                prepared: Prepared::new(&corners::corners(&corners)),
                plane: Plane {
                    normal: outward,
                    offset: [0.0, (high + second) / 2.0, 2.0][i % 3],
                },
                reference,
            }
        })
        .collect();
    let mut buffers = Buffers::default();
    both(
        &format!("{size} corners"),
        ROUNDS,
        &inputs,
        |c| {
            let mut places = c.places.borrow_mut();
            let mut cut = || places.clip_polygon(size, c.plane, EDGE, c.reference);
            (0..ROUNDS).map(|_| cut()).sum()
        },
        |c| {
            let (plane, reference) = (convert::plane(c.plane), convert::plane(c.reference));
            let mut cut = || buffers.clip_polygon(&c.prepared, plane, EDGE.into(), reference);
            (0..ROUNDS).map(|_| cut()).sum()
        },
    );
}

struct Reduction {
    places: Places,
    points: Vec<LocalManifoldPoint>,
    normal: Vec3,
}

fn reductions(size: usize, rounds: usize, n: &mut Numbers) {
    let kept = Kept {
        from: 0,
        count: size,
    };
    let inputs: Vec<Reduction> = (0..INPUTS)
        .map(|_| {
            let (candidates, reference) = round(size, n);
            let normal = reference.normal;
            Reduction {
                places: Places::new(&candidates),
                points: corners::points(&images(&candidates, normal)),
                normal,
            }
        })
        .collect();
    let mut buffers = Buffers::default();
    both(
        &format!("{size} candidates"),
        rounds,
        &inputs,
        |r| match rounds {
            1 => {
                let contact = r.places.reduce_manifold_points(METRES, kept, r.normal);
                contact.count.into()
            }
            _ => r.places.reduce_rounds(METRES, kept, r.normal, rounds),
        },
        |r| {
            let normal = convert::vector(r.normal);
            let mut reduce = || buffers.reduce_manifold_points(normal, &r.points);
            (0..rounds).map(|_| reduce()).sum()
        },
    );
}

struct Placed {
    transform: Transform,
    face: usize,
    vertex: usize,
}

/// The shape on itself, placed a little differently each time.
fn candidates(what: &str, shape: &Shape, place: fn(&mut Numbers) -> Transform, n: &mut Numbers) {
    let hull = convert::hull(shape);
    let lent = Accepted::new(&shape.numbers, &shape.links, shape.size).expect("a good hull");
    let inputs: Vec<Placed> = (0..INPUTS).map(|_| placed(&hull, place(n))).collect();
    let (mut places, mut cuts) = (Places::default(), FaceCuts::<64>::default());
    both(
        what,
        1,
        &inputs,
        |p| {
            let kept = places.candidates(lent, lent, p.transform, p.face, p.vertex);
            kept.count
        },
        |p| {
            let transform = convert::transform(p.transform);
            cuts.cut(&hull, &hull, transform, p.face as i32, p.vertex as i32)
        },
    );
}

/// The face and the vertex that the text's search finds.
fn placed(hull: &HullData, transform: Transform) -> Placed {
    let axis = search(hull, hull, convert::transform(transform), false).face_a;
    Placed {
        transform,
        face: usize::try_from(axis.index_a).expect("a face"),
        vertex: usize::try_from(axis.index_b).expect("a vertex"),
    }
}

/// The middle of a log's first side, seen from its axis: how far, and which way.
fn side() -> (f32, Vec3) {
    let half = TAU / 24.0;
    (
        0.3 * half.cos() as f32,
        rounded([half.cos(), half.sin(), 0.0]),
    )
}

/// A thousandth deep, and so far along the axis or across.
fn at(direction: Vec3, distance: f32, along: Vec3) -> Vec3 {
    let deep = distance - 0.001;
    convert::ours(reading::mul_add(
        convert::vector(along),
        deep,
        convert::vector(direction),
    ))
}

/// Both axes the same way, one log shifted along.
fn side_on_side(n: &mut Numbers) -> Transform {
    let (apothem, out) = side();
    let shift = rounded([0.0, 0.0, n.between(-4.0, 4.0)]);
    Transform {
        p: at(out, 2.0 * apothem, shift),
        q: Quat {
            v: rounded([0.0; 3]),
            s: 1.0,
        },
    }
}

/// One log stands on the other: its axis along the other's side.
fn end_on_side(n: &mut Numbers) -> Transform {
    let (apothem, out) = side();
    let shift = rounded([0.0, 0.0, n.between(-2.0, 2.0)]);
    let turn = (TAU / 8.0).sin() as f32;
    Transform {
        p: at(out, apothem + 3.0, shift),
        q: Quat {
            v: Vec3 {
                x: -turn * out.y,
                y: turn * out.x,
                z: 0.0,
            },
            s: turn,
        },
    }
}

/// Turned about the vertical by any angle, and shifted.
fn cube_on_cube(n: &mut Numbers) -> Transform {
    let half = n.between(0.0, TAU / 2.0);
    let shift = rounded([n.between(-0.5, 0.5), n.between(-0.5, 0.5), 0.0]);
    let up = rounded([0.0, 0.0, 1.0]);
    Transform {
        p: at(up, 2.0, shift),
        q: Quat {
            v: rounded([0.0, 0.0, half.sin()]),
            s: half.cos() as f32,
        },
    }
}
