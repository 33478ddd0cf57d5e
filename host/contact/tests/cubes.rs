//! Document 01's runs through the wrapper: two cubes of half-size 1, and what the wrapper says of refusals, retired types,
//! places and lengths.

use cases::shapes::solids::{block, frustum, OCTAGON};
use cases::shapes::Shape;
use contact::*;

/// V 8, H 24, F 6.
const SIZE: HullSize = HullSize {
    unit: 1,
    vertices: 8,
    half_edges: 24,
    faces: 6,
};

/// The corners of each face of a cube, counterclockwise seen from outside; a corner's signs are the bits of its number.
/// Faces -x, +x, -y, +y, -z, +z.
const FACES: [[u8; 4]; 6] = [
    [0, 4, 6, 2],
    [1, 3, 7, 5],
    [0, 1, 5, 4],
    [2, 6, 7, 3],
    [0, 2, 3, 1],
    [4, 5, 7, 6],
];

struct Cube {
    numbers: Vec<f32>,
    links: Vec<u8>,
}

impl Cube {
    fn new() -> Cube {
        let mut numbers = vec![-1.0, -1.0, -1.0, 1.0, 1.0, 1.0];
        for axis in 0..3 {
            numbers.extend((0..8).map(|corner| if corner >> axis & 1 == 1 { 1.0 } else { -1.0 }));
        }
        for face in 0..6 {
            let mut normal = [0.0; 3];
            normal[face / 2] = if face % 2 == 1 { 1.0 } else { -1.0 };
            numbers.extend(normal);
            numbers.push(1.0);
        }
        Cube {
            numbers,
            links: links(),
        }
    }

    fn hull(&self) -> Hull<'_> {
        Hull::new(SIZE, &self.numbers, &self.links).expect("the lists fit")
    }
}

/// Half-edges are numbered as the faces meet them, twins side by side.
fn links() -> Vec<u8> {
    let sides = |face: usize| (0..4).map(move |i| (FACES[face][i], FACES[face][(i + 1) % 4]));
    let mut edges: Vec<(u8, u8)> = Vec::new();
    for (from, to) in (0..6).flat_map(sides) {
        if !edges.contains(&(from, to)) {
            edges.extend([(from, to), (to, from)]);
        }
    }
    let number = |side: (u8, u8)| edges.iter().position(|&e| e == side).expect("an edge") as u8;
    let mut half_edges = [[0; 4]; 24];
    let (mut vertices, mut faces) = ([0; 8], [0; 6]);
    for face in 0..6 {
        let ring: Vec<u8> = sides(face).map(number).collect();
        for (i, &edge) in ring.iter().enumerate() {
            let origin = FACES[face][i];
            half_edges[usize::from(edge)] = [ring[(i + 1) % 4], edge ^ 1, origin, face as u8];
            vertices[usize::from(origin)] = edge;
            faces[face] = edge;
        }
    }
    [&vertices[..], half_edges.as_flattened(), &faces].concat()
}

fn at(x: f32) -> Transform {
    Transform {
        p: Vec3 { x, y: 0.0, z: 0.0 },
        q: Quat::IDENTITY,
    }
}

#[test]
fn apart_then_hit() {
    let cube = Cube::new();
    let mut cache = SatCache::EMPTY;
    let outcome = collide(&cube.hull(), &cube.hull(), at(3.0), &mut cache);
    assert_eq!(outcome.accepted(), Ok(Contact::EMPTY));
    let separation = f32::from_bits(cache.separation);
    assert_eq!(
        (separation, cache.kind, cache.index_a, cache.hit),
        (1.0, 2, 1, 0)
    );
    let _ = collide(&cube.hull(), &cube.hull(), at(3.0), &mut cache);
    assert_eq!(cache.hit, 1);
}

#[test]
fn touching() {
    let cube = Cube::new();
    let mut cache = SatCache::EMPTY;
    let outcome = collide(&cube.hull(), &cube.hull(), at(2.0), &mut cache);
    assert_eq!(outcome.refusal(), None);
    assert_eq!(outcome.points().len(), 4);
    assert!(outcome.points().iter().all(|point| point.separation == 0.0));
    assert_eq!(outcome.contact.normal.x, 1.0);
    assert_eq!((cache.kind, cache.separation), (3, 0));
    // Four candidates, so all of them and in their order.
    assert_eq!(outcome.contact.points.map(|p| p.place), [0, 1, 2, 3]);

    let before = cache;
    let outcome = collide_with(3, &cube.hull(), &cube.hull(), at(2.0), &mut cache);
    assert_eq!(outcome.accepted(), Ok(Contact::EMPTY));
    assert_eq!(cache, before);
}

#[test]
fn refusals() {
    let (cube, mut broken) = (Cube::new(), Cube::new());
    broken.numbers[0] = f32::NAN;
    let face_9 = SatCache {
        kind: 2,
        index_a: 9,
        ..SatCache::EMPTY
    };
    let (good, broken) = (cube.hull(), broken.hull());
    let short = Hull::lent(SIZE, &[], &cube.links);
    for (a, b, x, cache, refusal) in [
        (&broken, &broken, f32::NAN, face_9, Refusal::HullA),
        (&short, &good, 2.0, SatCache::EMPTY, Refusal::HullA),
        (&good, &broken, f32::NAN, face_9, Refusal::HullB),
        (&good, &good, f32::NAN, face_9, Refusal::Transform),
        (&good, &good, 2.0, face_9, Refusal::Cache),
    ] {
        let mut next = cache;
        let outcome = collide(a, b, at(x), &mut next);
        assert_eq!(outcome.accepted(), Err(refusal));
        assert_eq!((outcome.contact, next), (Contact::EMPTY, cache));
    }
}

/// Document 02's example of two octagon prisms, one on top of the other: eight candidates, of which four are picked, and not
/// in their order. A point that is not used has no place.
#[test]
fn places() {
    let prism = Shape::new(&frustum(&OCTAGON, 1.0, 1.0));
    let hull = Hull::from(prism.lent());
    let above = Transform {
        p: Vec3 {
            z: 1.0,
            ..Vec3::ZERO
        },
        q: Quat::IDENTITY,
    };
    let mut cache = SatCache::EMPTY;
    let outcome = collide(&hull, &hull, above, &mut cache);
    assert_eq!(outcome.contact.points.map(|p| p.place), [0, 4, 2, 6]);

    let cube = Cube::new();
    let apart = collide(
        &cube.hull(),
        &cube.hull(),
        at(3.0),
        &mut SatCache::default(),
    );
    let refused = collide(
        &cube.hull(),
        &cube.hull(),
        at(f32::NAN),
        &mut SatCache::default(),
    );
    for outcome in [apart, refused] {
        let places = outcome.contact.points.map(|p| p.place);
        assert_eq!(places, [UNUSED_PLACE; MAX_MANIFOLD_POINTS]);
    }
}

/// A retired type acts as type 0, and the outcome tells that it was read; where the cache stays as it was, it does not.
#[test]
fn retired_types() {
    let cube = Cube::new();
    let hull = cube.hull();
    for kind in 0..=255 {
        let retired = (6..=8).contains(&kind);
        let given = SatCache {
            separation: 0x7fc1_2345,
            kind,
            index_a: 255,
            index_b: 255,
            hit: 7,
        };
        assert_eq!(given.has_retired_type(), retired, "{kind}");
        let mut cache = given;
        let small = collide_with(3, &hull, &hull, at(2.0), &mut cache);
        assert_eq!(small.accepted(), Ok(Contact::EMPTY));
        assert!(!small.retired_type_read() && cache == given, "{kind}");
        let refused = collide(&hull, &hull, at(f32::NAN), &mut cache);
        assert_eq!(refused.accepted(), Err(Refusal::Transform));
        assert!(!refused.retired_type_read() && cache == given, "{kind}");
        if (2..=4).contains(&kind) {
            continue; // they name what a cube does not have
        }
        let mut empty = SatCache::EMPTY;
        let searched = collide(&hull, &hull, at(2.0), &mut empty);
        let outcome = collide(&hull, &hull, at(2.0), &mut cache);
        assert_eq!(outcome.accepted(), searched.accepted());
        assert_eq!((cache, cache.kind), (empty, 3), "{kind}");
        assert_eq!(outcome.retired, u8::from(retired), "{kind}");
        assert_eq!(outcome.retired_type_read(), retired, "{kind}");
    }
}

#[test]
fn lists_that_do_not_fit() {
    let Cube { numbers, links } = Cube::new();
    let wanted = Some(54);
    assert_eq!(
        Hull::new(SIZE, &numbers[1..], &links).map(|_| ()),
        Err(HullError::Numbers { wanted, found: 53 })
    );
    let huge = HullSize {
        vertices: usize::MAX,
        ..SIZE
    };
    let error = Hull::new(huge, &numbers, &links).map(|_| ());
    assert!(error.is_err_and(|error| error.to_string().starts_with("no hull is so large")));
    let error = Hull::new(SIZE, &numbers, &links[..100]).map(|_| ());
    assert!(error.is_err_and(|error| error.to_string().ends_with("110 links, not 100")));
}

#[test]
fn frames() {
    assert_eq!(*answer(&[0x11, 0, 3, 1, 9]), [0x91, 0, 9, 1, 3]);
    assert_eq!(*answer(&[0x11, 2, 3, 1, 9]), [0xff, 0x08]);
    assert_eq!(*answer(&[0x10, 0x40]), [0xff, 0x23]);
    assert_eq!(*answer(&[]), [0xff, 0x22]);
    let mut small = [7; 107]; // one byte too few
    assert_eq!(answer_into(&[0x10, 0x40, 0x80, 0, 0], &mut small), 0);
    assert_eq!(small, [7; 107]);
    let mut fitting = [7; LONGEST_ANSWER];
    assert_eq!(answer_into(&[0x10, 0x40, 0x80, 0, 0], &mut fitting), 5);
    assert_eq!(fitting[..6], [0x90, 0x40, 0, 0, 0, 7]);
}

/// One change of a cube for each rule that one change can break; what is said names the rule and what to do.
#[test]
fn rules() {
    let good = Cube::new();
    assert_eq!(good.hull().check(), Ok(()));
    let short = Hull::lent(SIZE, &good.numbers[1..], &good.links);
    assert_eq!(short.check(), Err(Rule::Sizes));
    for (place, to, rule) in [
        (8, 24, Rule::Ranges), // the next of half-edge 0
        (9, 0, Rule::Twins),   // the twin of half-edge 0
        (8, 8, Rule::Nexts),   // its next, of another face
        (104, 8, Rule::Rings), // the stored edge of face 0
        (0, 2, Rule::Fans),    // the stored edge of vertex 0
    ] {
        let mut cube = Cube::new();
        cube.links[place] = to;
        assert_eq!(cube.hull().check(), Err(rule), "links[{place}] = {to}");
    }
    let mut cube = Cube::new();
    cube.numbers[53] = 8192.001; // the offset of face 5
    assert_eq!(cube.hull().check(), Err(Rule::Numbers));

    let mut cache = SatCache::EMPTY;
    let outcome = collide(&good.hull(), &cube.hull(), at(2.0), &mut cache);
    let refused = Refused::of(&outcome, &good.hull(), &cube.hull()).expect("hull B is broken");
    assert_eq!(refused.refusal, Refusal::HullB);
    assert_eq!(
        refused.to_string(),
        "refusal 2: hull B breaks a rule: H8 is broken: face 5 has offset 8192.001, not within 8192 m; what to do: keep \
         coordinates, padding, box within 4096 * unit, offsets within 8192 * unit, vertices in the box, edges from unit / \
         1024 on"
    );
    let outcome = collide(&good.hull(), &good.hull(), at(2.0), &mut cache);
    assert_eq!(Refused::of(&outcome, &good.hull(), &good.hull()), None);
}

/// A cube in each unit, and two of unlike units.
#[test]
fn units() {
    let cubes = Unit::ALL.map(|unit| Shape::new(&block([1.0; 3])).in_unit(unit));
    let hulls = cubes.each_ref().map(|cube| Hull::from(cube.lent()));
    for (unit, hull) in Unit::ALL.into_iter().zip(&hulls) {
        let metre = unit.scale();
        assert_eq!((hull.unit(), hull.check()), (Ok(unit), Ok(())));
        let call = |x: f32, mut cache| {
            let outcome = collide(hull, hull, at(x), &mut cache);
            (outcome, cache)
        };
        let (apart, cache) = call(3.0 * metre, SatCache::EMPTY);
        assert_eq!(apart.accepted(), Ok(Contact::EMPTY));
        assert_eq!((cache.separation(), cache.kind), (metre, 2));
        let (touching, cache) = call(2.0 * metre, SatCache::EMPTY);
        assert_eq!((touching.points().len(), cache.separation()), (4, 0.0));
        for point in touching.points() {
            assert_eq!((point.position.x, point.separation), (metre, 0.0));
        }
        // The limit of positions, and what is said beyond it.
        let far = unit.farthest();
        let (accepted, _) = call(far, SatCache::EMPTY);
        assert_eq!(accepted.accepted(), Ok(Contact::EMPTY));
        let (beyond, _) = call(far.next_up(), SatCache::EMPTY);
        let refused = Refused::of(&beyond, hull, hull).expect("it is too far");
        assert_eq!(
            refused.to_string(),
            format!(
                "refusal 3: the transform is not finite, farther than {far} {} on an axis, or no rotation; what to do: \
                 give B's place in A's frame and unit, and normalize the quaternion every few steps",
                unit.symbol()
            )
        );
        // Unlike units are told before the transform and the cache are looked at, and the cache is kept.
        for (other, b) in Unit::ALL.into_iter().zip(&hulls) {
            let given = SatCache {
                kind: 2,
                index_a: 9,
                ..SatCache::EMPTY
            };
            let mut cache = given;
            let outcome = collide(hull, b, at(f32::NAN), &mut cache);
            assert_eq!((outcome.contact, cache), (Contact::EMPTY, given));
            let refused = Refused::of(&outcome, hull, b).expect("something is wrong");
            if other == unit {
                assert_eq!(refused.refusal, Refusal::Transform);
                continue;
            }
            assert_eq!(outcome.accepted(), Err(Refusal::Units));
            assert_eq!(refused.units, [unit.per_metre(), other.per_metre()]);
            assert_eq!(
                refused.to_string(),
                format!(
                    "refusal 17: hull A is in {unit} and hull B in {other}; what to do: bring both hulls to one unit: multiply \
                     box, coordinates and offsets of one of them, and set its unit"
                )
            );
        }
    }
    let mut unknown = Cube::new();
    unknown.numbers[0] = -2.0;
    let size = HullSize { unit: 25, ..SIZE };
    let unknown = Hull::lent(size, &unknown.numbers, &unknown.links);
    assert_eq!(unknown.unit(), Err(UnknownUnit { per_metre: 25 }));
    let outcome = collide(&hulls[0], &unknown, at(2.0), &mut SatCache::default());
    let refused = Refused::of(&outcome, &hulls[0], &unknown).expect("25 is no unit");
    assert_eq!(refused.refusal, Refusal::HullB);
    let words = "refusal 2: hull B breaks a rule: H1 is broken: the unit is 25 per metre, not 1, 10, 100 or 1000; what to do: ";
    assert!(refused.to_string().starts_with(words), "{refused}");
}

/// A record of two boxes far apart, as a scanner wrote it: refused as A and as B.
#[test]
fn two_shells() {
    let (cube, solid) = (Cube::new(), block([1.0; 3]));
    let two = Shape::new(&solid.joined(&solid.clone().moved([50.0, 0.0, 0.0])));
    let (good, two) = (cube.hull(), Hull::from(two.lent()));
    assert_eq!(two.check(), Err(Rule::Shell));
    for (a, b, number, name) in [(&two, &good, 1, 'A'), (&good, &two, 2, 'B')] {
        let given = SatCache {
            index_b: 7,
            ..SatCache::EMPTY
        };
        let mut cache = given;
        let outcome = collide(a, b, at(2.0), &mut cache);
        assert_eq!((outcome.status, outcome.contact), (number, Contact::EMPTY));
        assert_eq!(cache, given);
        let refused = Refused::of(&outcome, a, b).expect("it is refused");
        assert_eq!(
            refused.to_string(),
            format!(
                "refusal {number}: hull {name} breaks a rule: H9 is broken: two shells: half-edge 24 cannot be reached \
                 from half-edge 0; what to do: give each closed shell a record of its own, and cut a solid with a hole \
                 into pieces without one"
            )
        );
    }
}

/// The same calls on many threads at once, and on a thread with no more stack than is stated.
#[test]
fn threads() {
    let run = || {
        let cube = Cube::new();
        let mut cache = SatCache::EMPTY;
        let calls = (0..2000).map(|i| at(1.9 + i as f32 / 10_000.0));
        let outcomes: Vec<Outcome> = calls
            .map(|place| collide(&cube.hull(), &cube.hull(), place, &mut cache))
            .collect();
        (outcomes, cache)
    };
    let alone = run();
    let threads: Vec<_> = (0..8).map(|_| std::thread::spawn(run)).collect();
    for thread in threads {
        assert!(thread.join().expect("no call faults") == alone);
    }
    let small = std::thread::Builder::new().stack_size(96 * 1024);
    let thread = small.spawn(run).expect("a thread");
    assert!(thread.join().expect("no call faults") == alone);
}
