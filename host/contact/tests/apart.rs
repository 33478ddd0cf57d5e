//! The question whether two hulls are apart, through the wrapper: both answers on either side of the limit, the refusals and their
//! order, and what a call says of the same hulls.

use cases::shapes::breaks::break_rule;
use cases::shapes::solids::{block, frustum, pyramid, Solid};
use cases::shapes::{Padding, Shape};
use cases::sorts::{about, across, roof};
use cases::Numbers;
use contact::*;

fn at(x: f32, y: f32, z: f32) -> Transform {
    Transform {
        p: Vec3 { x, y, z },
        q: Quat::IDENTITY,
    }
}

fn cube() -> Shape {
    Shape::new(&block([1.0; 3]))
}

/// The answer, which a call with an empty cache does not contradict: it ends apart, with that axis in its cache, exactly where the
/// answer is a yes.
fn asked(a: &Shape, b: &Shape, transform: Transform) -> Result<bool, Refusal> {
    let (a, b): (Hull, Hull) = (a.lent().into(), b.lent().into());
    let answer = apart(&a, &b, transform);
    let Apart { status, apart } = apart_record(&a, &b, transform);
    let told = match answer {
        Ok(yes) => (0, yes.into()),
        Err(refusal) => (refusal.number(), 0),
    };
    assert_eq!((status, apart), told);
    let mut cache = SatCache::EMPTY;
    let outcome = collide(&a, &b, transform, &mut cache);
    let above = match cache.kind() {
        CacheKind::Nothing => false,
        _ => {
            f32::from_bits(cache.separation) > a.size().known_unit().unwrap().speculative_distance()
        }
    };
    assert_eq!(above, answer == Ok(true));
    if answer == Ok(true) {
        assert_eq!(outcome.accepted(), Ok(Contact::EMPTY));
    }
    answer
}

#[test]
fn cubes() {
    let cube = cube();
    for (x, answer) in [
        (3.0, true),
        (2.05, true),
        (2.01, false),
        (2.0, false),
        (0.0, false),
    ] {
        for transform in [
            at(x, 0.0, 0.0),
            at(-x, 0.3, 0.0),
            at(0.0, 0.3, x),
            at(0.5, -x, 0.1),
        ] {
            assert_eq!(asked(&cube, &cube, transform), Ok(answer), "{transform:?}");
        }
    }
}

/// docs/RULES.md's example of a no that is no touch: 15 mm along each axis, 26 mm from corner to corner.
#[test]
fn corner_to_corner() {
    let cube = cube();
    let diagonal = |by: f32| at(2.0 + by, 2.0 + by, 2.0 + by);
    assert_eq!(asked(&cube, &cube, diagonal(0.015)), Ok(false));
    assert_eq!(asked(&cube, &cube, diagonal(0.021)), Ok(true));
    let gap = 0.015 * 3f32.sqrt();
    assert!((0.0259..0.0261).contains(&gap));
}

/// A left of x = 0, B right of it: the separation is B's x, or what the offset of one face says.
#[test]
fn at_the_limit_by_a_face() {
    for unit in Unit::ALL {
        let moved = |x| Shape::new(&block([1.0; 3]).moved([x, 0.0, 0.0])).in_unit(unit);
        let (left, right) = (moved(-1.0), moved(1.0));
        let [limit, above, below] = about(unit.speculative_distance());
        for (x, answer) in [(below, false), (limit, false), (above, true)] {
            assert_eq!(asked(&left, &right, at(x, 0.0, 0.0)), Ok(answer), "{unit}");
            // The plane of A's face +x, then of B's face -x, moved in place of B.
            let mut shifted = left.clone();
            let plane = shifted.plane(1);
            shifted.numbers[plane + 3] = -x;
            assert_eq!(
                asked(&shifted, &right, at(0.0, 0.0, 0.0)),
                Ok(answer),
                "{unit}"
            );
            let mut shifted = right.clone();
            let plane = shifted.plane(0);
            shifted.numbers[plane + 3] = -x;
            assert_eq!(
                asked(&left, &shifted, at(0.0, 0.0, 0.0)),
                Ok(answer),
                "{unit}"
            );
        }
    }
}

/// Two roofs, the ridge of one across that of the other: no face tells that they are apart.
#[test]
fn at_the_limit_by_edges() {
    let mut numbers = Numbers::new(1);
    for unit in Unit::ALL {
        let shape = |solid: &Solid| Shape::new(solid).in_unit(unit);
        let (a, b) = (
            shape(&roof(&mut numbers)),
            shape(&across(roof(&mut numbers))),
        );
        let [limit, above, below] = about(unit.speculative_distance());
        for (x, answer) in [(below, false), (limit, false), (above, true)] {
            assert_eq!(asked(&a, &b, at(x, 0.0, 0.0)), Ok(answer), "{unit}");
        }
    }
}

/// Each refusal with every later reason beside it: only the first is told, and no answer is a yes.
#[test]
fn refusals() {
    let mut numbers = Numbers::new(2);
    let n = &mut numbers;
    let far = at(3.0, 0.0, 0.0);
    let not_finite = at(f32::NAN, 0.0, 0.0);
    let ask = |a: &Shape, b: &Shape, transform| {
        let (a, b) = (a.lent().into(), b.lent().into());
        let record = apart_record(&a, &b, transform);
        assert_eq!(record.apart, 0);
        apart(&a, &b, transform).expect_err("refused")
    };
    let (good, other) = (cube(), cube().in_unit(Unit::Centimetres));
    for rule in 1..=9 {
        let mut broken = cube();
        break_rule(rule, &mut broken, n);
        for transform in [far, not_finite] {
            for beside in [&good, &other, &broken] {
                assert_eq!(ask(&broken, beside, transform), Refusal::HullA, "H{rule}");
            }
            for beside in [&good, &other] {
                assert_eq!(ask(beside, &broken, transform), Refusal::HullB, "H{rule}");
            }
        }
    }
    for transform in [far, not_finite] {
        assert_eq!(ask(&good, &other, transform), Refusal::Units);
        assert_eq!(ask(&other, &good, transform), Refusal::Units);
    }
    let beyond = Unit::Metres.farthest().next_up();
    for transform in [not_finite, at(0.0, beyond, 0.0)] {
        assert_eq!(ask(&good, &good, transform), Refusal::Transform);
    }
    let words = Refused::new(Refusal::Units, &good.lent().into(), &other.lent().into());
    assert!(words
        .to_string()
        .starts_with("refusal 17: hull A is in metres and hull B in centimetres; what to do: "));
    assert_eq!(
        asked(&good, &good, at(0.0, beyond.next_down(), 0.0)),
        Ok(true)
    );
}

/// Lists of other lengths than the sizes ask for break H1, and so does no hull at all.
#[test]
fn lists_that_do_not_fit() {
    let cube = cube();
    let good: Hull = cube.lent().into();
    let size = |vertices| HullSize {
        vertices,
        ..cube.size
    };
    for hull in [
        Hull::lent(cube.size, &[], &cube.links),
        Hull::lent(cube.size, &cube.numbers, &cube.links[1..]),
        Hull::lent(size(usize::MAX), &cube.numbers, &cube.links),
        Hull::lent(size(0), &[], &[]),
    ] {
        assert_eq!(apart(&hull, &good, at(3.0, 0.0, 0.0)), Err(Refusal::HullA));
        assert_eq!(apart(&good, &hull, at(3.0, 0.0, 0.0)), Err(Refusal::HullB));
    }
}

/// Padding that reaches farther than every vertex: a call is refused by 5, the question is answered.
#[test]
fn padding_that_wins() {
    let cube = cube();
    let mut padded = Shape::new(&pyramid(5, 1.0, 1.0));
    padded.pad(Padding::Point([0.0, 0.0, -0.5]));
    // B's own planes lie far out, so that the face of A is the better one.
    for face in 0..padded.size.faces {
        let plane = padded.plane(face);
        padded.numbers[plane + 3] = 8.0;
    }
    let transform = at(0.0, 0.0, 1.0);
    let (a, b): (Hull, Hull) = (cube.lent().into(), padded.lent().into());
    let outcome = collide(&a, &b, transform, &mut SatCache::default());
    assert_eq!(outcome.accepted(), Err(Refusal::PaddingWon));
    assert_eq!(apart(&a, &b, transform), Ok(false));
}

/// Any number of threads at once, and one with no more stack than is stated beside its own.
#[test]
fn threads() {
    let run = || {
        let prism = Shape::new(&frustum(&[[0.0, 0.0], [1.0, 0.0], [0.0, 1.0]], 1.0, 1.0));
        let heights = (0..200).map(|step| 0.01 * step as f32);
        let answers = heights.map(|z| asked(&prism, &prism, at(0.0, 0.0, z)));
        answers.collect::<Vec<_>>()
    };
    let alone = run();
    assert!(alone.contains(&Ok(true)) && alone.contains(&Ok(false)));
    let threads: Vec<_> = (0..4).map(|_| std::thread::spawn(run)).collect();
    for thread in threads {
        assert!(thread.join().expect("no question faults") == alone);
    }
    let small = std::thread::Builder::new().stack_size(96 * 1024);
    let thread = small.spawn(run).expect("a thread");
    assert!(thread.join().expect("no question faults") == alone);
}
