//! Document 02's worked examples, a list for each request: the call in a frame, and what its answer must hold. The values
//! were worked out by another writing of documents 01 and 02, not by the one here.

use crate::codec::{self, call_frame, Asked};
use crate::sorts::marked::frame;
use cases::calls::{Call, Given};
use cases::shapes::solids::{bands, block, frustum, polygon, pyramid, tipped, Solid, OCTAGON};
use cases::shapes::{Link, Padding, Shape};
use cases::sorts::about;
use records::{Apart, Quat, SatCache, Transform, Unit, Vec3, UNUSED_PLACE};
use std::f64::consts::TAU;

/// A call, and what its answer must hold.
pub struct Example {
    pub words: &'static str,
    pub frame: Vec<u8>,
    /// The answer's status, next cache, count of points, places and mark.
    pub status: u8,
    pub cache: SatCache,
    pub count: u8,
    pub places: [u8; 4],
    pub retired: u8,
}

/// A question about the hulls and the transform of a call's frame, and its answer.
pub struct ApartExample {
    pub words: &'static str,
    pub frame: Vec<u8>,
    pub answer: Apart,
}

impl ApartExample {
    /// What the frame gives.
    pub fn given(&self) -> Given {
        match codec::decode(&self.frame) {
            Ok(Asked::Call(given)) => given,
            _ => panic!("an example that is no call: {}", self.words),
        }
    }
}

/// The places of no point, and of four points of four candidates, which come all and in their order.
const NONE: [u8; 4] = [UNUSED_PLACE; 4];
const IN_ORDER: [u8; 4] = [0, 1, 2, 3];

/// Examples of calls by the letter of the request, in the order in which they landed.
pub fn by_request() -> [(char, Vec<Example>); 5] {
    [
        ('k', finite_separations().into()),
        ('j', retired_types().into()),
        ('d', places().into()),
        ('c', shells().into()),
        ('i', units().into()),
    ]
}

/// All requests' examples, in the same order.
pub fn all() -> Vec<Example> {
    let lists = by_request().into_iter();
    lists.flat_map(|(_, examples)| examples).collect()
}

/// The solid's hull; each vertex stores its lowest half-edge.
fn hull(solid: &Solid) -> Shape {
    let mut hull = Shape::new(solid);
    for edge in (0..hull.size.half_edges).rev() {
        let vertex = hull.get(edge, Link::Origin);
        hull.links[vertex] = edge as u8;
    }
    hull
}

/// A cube of half-size 1 whose planes all have this offset, in a box of this half-size.
fn cube(offset: f32, half: f32) -> Shape {
    let mut cube = hull(&block([1.0; 3]));
    for face in 0..cube.size.faces {
        let plane = cube.plane(face);
        cube.numbers[plane + 3] = offset;
    }
    for (place, end) in cube.numbers[..6].iter_mut().enumerate() {
        *end = if place < 3 { -half } else { half };
    }
    cube
}

/// A cache that names face 1 of A (type 2), or that comes of face 0 of B and vertex 1 of A (type 3).
fn axis(kind: u8, separation: u32) -> SatCache {
    SatCache {
        separation,
        kind,
        index_a: 1,
        ..SatCache::EMPTY
    }
}

/// An empty cache but for its type.
fn of_type(kind: u8) -> SatCache {
    SatCache {
        kind,
        ..SatCache::EMPTY
    }
}

/// Request k: a face separation is a finite number, however far the planes and the hulls lie.
fn finite_separations() -> [Example; 5] {
    const FAR: [f32; 3] = [4096.0; 3];
    let plain = cube(1.0, 1.0);
    let shifted = cube(8192.0, 1.0);
    let boxed = cube(8192.0, 4096.0);
    [
        Example {
            words: "k 1: cubes, x = 3",
            frame: frame(4, &plain, &plain, [3.0, 0.0, 0.0], SatCache::EMPTY),
            status: 0,
            cache: axis(2, 0x3f80_0000),
            count: 0,
            places: NONE,
            retired: 0,
        },
        Example {
            words: "k 2: cubes, x = 2, every offset of A 8192",
            frame: frame(4, &shifted, &plain, [2.0, 0.0, 0.0], SatCache::EMPTY),
            status: 0,
            cache: axis(3, 0),
            count: 4,
            places: IN_ORDER,
            retired: 0,
        },
        Example {
            words: "k 3: every offset of A and of B 8192",
            frame: frame(4, &shifted, &shifted, [2.0, 0.0, 0.0], SatCache::EMPTY),
            status: 0,
            cache: axis(3, 0xc5ff_f800),
            count: 4,
            places: IN_ORDER,
            retired: 0,
        },
        Example {
            words: "k 4: the same at the far corner, the boxes as large as they may be",
            frame: frame(4, &boxed, &boxed, FAR, SatCache::EMPTY),
            status: 0,
            cache: SatCache::EMPTY,
            count: 0,
            places: NONE,
            retired: 0,
        },
        Example {
            words: "k 5: the same in plain boxes, with type 6, which is retired since j",
            frame: frame(4, &shifted, &shifted, FAR, of_type(6)),
            status: 0,
            cache: SatCache::EMPTY,
            count: 0,
            places: NONE,
            retired: 1,
        },
    ]
}

/// Two cubes of half-size 1, B at this x.
fn cubes(capacity: i32, x: f32, cache: SatCache) -> Vec<u8> {
    let cube = cube(1.0, 1.0);
    frame(capacity, &cube, &cube, [x, 0.0, 0.0], cache)
}

/// Request j: types 6, 7 and 8 act as type 0, and an accepted call with a capacity of 4 or more is marked.
fn retired_types() -> [Example; 7] {
    // Every field filled, to see that a call which does not read the cache keeps it.
    let filled = |kind| SatCache {
        separation: 0x3f00_0000,
        kind,
        index_a: 1,
        index_b: 2,
        hit: 3,
    };
    [
        Example {
            words: "j 1: cubes, x = 2, type 0: no mark",
            frame: cubes(4, 2.0, SatCache::EMPTY),
            status: 0,
            cache: axis(3, 0),
            count: 4,
            places: IN_ORDER,
            retired: 0,
        },
        Example {
            words: "j 2: cubes, x = 2, type 8 with every other field filled: the answer of type 0, and the mark",
            frame: cubes(
                4,
                2.0,
                SatCache {
                    separation: 0x7fc1_2345,
                    kind: 8,
                    index_a: 255,
                    index_b: 255,
                    hit: 7,
                },
            ),
            status: 0,
            cache: axis(3, 0),
            count: 4,
            places: IN_ORDER,
            retired: 1,
        },
        Example {
            words: "j 3: cubes, x = 3, type 6: an axis apart, as of type 0",
            frame: cubes(4, 3.0, of_type(6)),
            status: 0,
            cache: axis(2, 0x3f80_0000),
            count: 0,
            places: NONE,
            retired: 1,
        },
        Example {
            words: "j 4: cubes, x = 2, type 7, capacity 3: nothing is looked at, no mark, the type stays",
            frame: cubes(3, 2.0, filled(7)),
            status: 0,
            cache: filled(7),
            count: 0,
            places: NONE,
            retired: 0,
        },
        Example {
            words: "j 5: cubes, x NaN, type 6: refused by 3, no mark, the type stays",
            frame: cubes(4, f32::NAN, filled(6)),
            status: 3,
            cache: filled(6),
            count: 0,
            places: NONE,
            retired: 0,
        },
        Example {
            words: "j 6: a 64-gon that loses one corner, type 6: refused by 6 late in the work, no mark all the same",
            frame: corner_lost(filled(6)),
            status: 6,
            cache: filled(6),
            count: 0,
            places: NONE,
            retired: 0,
        },
        Example {
            words: "j 7: cubes, x = 2, type 5: acts as type 0 and is not retired, no mark",
            frame: cubes(
                4,
                2.0,
                SatCache {
                    index_a: 9,
                    index_b: 9,
                    ..of_type(5)
                },
            ),
            status: 0,
            cache: axis(3, 0),
            count: 4,
            places: IN_ORDER,
            retired: 0,
        },
    ]
}

/// Request d: each point says which candidate it was.
fn places() -> [Example; 6] {
    let prism = hull(&frustum(&OCTAGON, 1.0, 1.0));
    let banded = planed(&tipped(&bands(-1.0, &WAYS), 0.7));
    let block = hull(&block([1.0, 1.0, 0.5]));
    let top_of_block = SatCache {
        kind: 2,
        index_a: 5,
        ..SatCache::EMPTY
    };
    [
        Example {
            words: "d 1: cubes, x = 2: four candidates, so places 0 to 3",
            frame: cubes(4, 2.0, SatCache::EMPTY),
            status: 0,
            cache: axis(3, 0),
            count: 4,
            places: IN_ORDER,
            retired: 0,
        },
        Example {
            words: "d 2: cubes, x = 3: apart, no point",
            frame: cubes(4, 3.0, SatCache::EMPTY),
            status: 0,
            cache: axis(2, 0x3f80_0000),
            count: 0,
            places: NONE,
            retired: 0,
        },
        Example {
            words: "d 3: two wedges edge on edge: one edge point",
            frame: wedges(0.0),
            status: 0,
            cache: SatCache {
                kind: 4,
                index_a: 12,
                index_b: 12,
                ..SatCache::EMPTY
            },
            count: 1,
            places: [0, 255, 255, 255],
            retired: 0,
        },
        Example {
            words: "d 4: two octagon prisms, one on top of the other: eight candidates, four of them picked, not in their order",
            frame: frame(4, &prism, &prism, [0.0, 0.0, 1.0], SatCache::EMPTY),
            status: 0,
            cache: SatCache {
                kind: 3,
                index_a: 8,
                ..SatCache::EMPTY
            },
            count: 4,
            places: [0, 4, 2, 6],
            retired: 0,
        },
        Example {
            words: "d 5: two bands round a corner of A's top, cached face: two candidates carry one tag, the place tells which it is",
            frame: frame(4, &block, &banded, [0.0, 0.0, 0.5], top_of_block),
            status: 0,
            cache: SatCache {
                hit: 1,
                ..top_of_block
            },
            count: 4,
            places: [1, 10, 9, 11],
            retired: 0,
        },
        Example {
            words: "d 6: cubes, x NaN: refused, so every place is unused",
            frame: cubes(4, f32::NAN, SatCache::EMPTY),
            status: 3,
            cache: SatCache::EMPTY,
            count: 0,
            places: NONE,
            retired: 0,
        },
    ]
}

/// Two bands round the corner of A's top at (1, 1): each way round is cut off by the same two edges.
const WAYS: [[f64; 3]; 4] = [
    [0.1, 1.9, 1.9],
    [0.2, 1.8, 1.8],
    [0.4, 1.5, 1.6],
    [0.5, 1.4, 1.5],
];

/// A's ridge goes along x and looks up, B's along y and looks down; A's lies at z = 0, B's at this z.
fn wedges(z: f32) -> Vec<u8> {
    let faces = [
        vec![0, 1, 2],
        vec![5, 4, 3],
        vec![1, 0, 3, 4],
        vec![2, 1, 4, 5],
        vec![0, 2, 5, 3],
    ];
    let wedge = |corner: fn(f64, f64, f64) -> [f64; 3]| {
        let profile =
            |along| [(0.0, 0.0), (1.0, 1.0), (-1.0, 1.0)].map(|(y, z)| corner(along, y, z));
        planed(&Solid {
            corners: [profile(-2.0), profile(2.0)].concat(),
            faces: faces.to_vec(),
        })
    };
    let (a, b) = (wedge(|x, y, z| [x, y, -z]), wedge(|y, x, z| [x, y, z]));
    frame(4, &a, &b, [0.0, 0.0, z], SatCache::EMPTY)
}

/// A cone of 64 sides on a block's top face, whose edge lies at x = 2 m, B at x = 1.001 m. The cone's corners lie half a step
/// round, and B is turned half a step back: one corner points along x and is beyond the edge, the two beside it are not, so
/// that what the two faces share has 65 corners.
fn corner_lost(cache: SatCache) -> Vec<u8> {
    let (block, cone) = (hull(&block([2.0, 2.0, 1.0])), planed(&cone(64)));
    let half_turn = TAU / 256.0;
    call_frame(&Call {
        capacity: 4,
        a: block.lent(),
        b: cone.lent(),
        transform: Transform {
            p: Vec3 {
                x: 1.001,
                y: 0.0,
                z: 1.0,
            },
            q: Quat {
                v: Vec3 {
                    x: -0.0,
                    y: -0.0,
                    z: -half_turn.sin() as f32,
                },
                s: half_turn.cos() as f32,
            },
        },
        cache,
    })
}

/// A pyramid of radius and height 1 whose corners lie half a step round.
fn cone(sides: usize) -> Solid {
    let mut solid = pyramid(sides, 1.0, 1.0);
    let half_steps = polygon(2 * sides, 1.0).into_iter().skip(1).step_by(2);
    for (corner, [x, y]) in solid.corners.iter_mut().zip(half_steps) {
        *corner = [x, y, 0.0];
    }
    solid
}

/// Request c: a hull is one closed shell without a hole.
fn shells() -> [Example; 7] {
    let (cube, ring) = (block([1.0; 3]), square_ring());
    let beside = |by: f64| block([1.0; 3]).moved([by, 0.0, 0.0]);
    let one = hull(&cube);
    let far = two_boxes();
    let both = planed(&cube.joined(&ring.clone().moved([6.0, 0.0, 0.0])));
    let mut long = met(&cube, &beside(2.0));
    // The face +x of the first and the face -x of the second, which lie on each other.
    long.faces.remove(cube.faces.len());
    long.faces.remove(1);
    let at_corner = met(&cube, &cube.clone().moved([2.0; 3]));
    let ask = |a: &Shape, b: &Shape, x: f32| frame(4, a, b, [x, 0.0, 0.0], SatCache::EMPTY);
    let refused = |words, frame, status| Example {
        words,
        frame,
        status,
        cache: SatCache::EMPTY,
        count: 0,
        places: NONE,
        retired: 0,
    };
    [
        refused(
            "c 1: two boxes 50 apart in one record (V 16, H 48, F 12) as A: rule 9",
            ask(&far, &one, 2.0),
            1,
        ),
        refused("c 2: the same as B", ask(&one, &far, 2.0), 2),
        refused(
            "c 3: a square ring (V 16, H 64, F 16): one shell, but V - H/2 + F = 0",
            ask(&planed(&ring), &one, 4.0),
            1,
        ),
        refused(
            "c 4: a box and a square ring in one record (V 24, H 88, F 22): V - H/2 + F = 2, and two shells",
            ask(&both, &one, 4.0),
            1,
        ),
        Example {
            words: "c 5: two boxes made one by a common face that is taken out (V 12, H 40, F 10): accepted",
            frame: ask(&hull(&long), &one, 5.0),
            status: 0,
            cache: SatCache {
                index_a: 5,
                ..axis(2, 0x3f80_0000)
            },
            count: 0,
            places: NONE,
            retired: 0,
        },
        refused(
            "c 6: two boxes that share the number of one vertex: refused as before, by H7",
            ask(&hull(&at_corner), &one, 2.0),
            1,
        ),
        Example {
            words: "c 7: the cube with its numbering changed: accepted",
            frame: ask(&numbered_anew(), &one, 2.0),
            status: 0,
            cache: SatCache {
                index_a: 2,
                ..axis(3, 0)
            },
            count: 4,
            places: IN_ORDER,
            retired: 0,
        },
    ]
}

/// Two cubes of half-size 1 in one record, 50 apart.
fn two_boxes() -> Shape {
    let cube = block([1.0; 3]);
    hull(&cube.joined(&cube.clone().moved([50.0, 0.0, 0.0])))
}

/// Both under one list of corners and one of faces; a corner of the second that lies on one of the first is that one.
fn met(first: &Solid, second: &Solid) -> Solid {
    let mut both = first.clone();
    let numbers: Vec<usize> = second
        .corners
        .iter()
        .map(|corner| {
            let own = first.corners.iter().position(|own| own == corner);
            own.unwrap_or_else(|| {
                both.corners.push(*corner);
                both.corners.len() - 1
            })
        })
        .collect();
    let renamed = |ring: &Vec<usize>| ring.iter().map(|&corner| numbers[corner]).collect();
    both.faces.extend(second.faces.iter().map(renamed));
    both
}

/// V 16, H 64, F 16: a ring of four blocks round a square hole, its corners at radius 2 and 1. They are numbered the outer
/// ones above, the outer ones below, the inner ones above, the inner ones below.
fn square_ring() -> Solid {
    let corners = [(2.0, 0.5), (2.0, -0.5), (1.0, 0.5), (1.0, -0.5)].map(|(radius, z)| {
        let half_steps = polygon(8, radius).into_iter().skip(1).step_by(2);
        half_steps.map(move |[x, y]| [x, y, z])
    });
    let side = |here: usize| {
        let there = (here + 1) % 4;
        let across =
            |from: usize, to: usize| vec![from + here, from + there, to + there, to + here];
        [across(4, 0), across(8, 12), across(0, 8), across(12, 4)]
    };
    Solid {
        corners: corners.into_iter().flatten().collect(),
        faces: (0..4).flat_map(side).collect(),
    }
}

/// The cube of half-size 1 with other numbers for its vertices, half-edges and faces, and with other stored edges: of each
/// face its ring, which begins with the stored edge, each half-edge with its origin.
fn numbered_anew() -> Shape {
    const RINGS: [[(usize, usize); 4]; 6] = [
        [(19, 2), (0, 4), (11, 6), (13, 7)],
        [(4, 3), (12, 2), (22, 7), (21, 0)],
        [(7, 6), (14, 1), (23, 0), (10, 7)],
        [(2, 5), (6, 1), (1, 6), (9, 4)],
        [(5, 2), (16, 3), (8, 5), (18, 4)],
        [(3, 1), (17, 5), (20, 3), (15, 0)],
    ];
    const VERTEX_EDGES: [u8; 8] = [21, 14, 5, 16, 0, 8, 7, 13];
    let corners = block([1.0; 3]).corners;
    let mut cube = hull(&Solid {
        corners: [0, 4, 3, 2, 7, 6, 5, 1]
            .map(|old: usize| corners[old])
            .into(),
        faces: RINGS
            .map(|ring| ring.map(|(_, origin)| origin).into())
            .into(),
    });
    for (face, ring) in RINGS.into_iter().enumerate() {
        for (place, (edge, origin)) in ring.into_iter().enumerate().rev() {
            let (next, _) = ring[(place + 1) % 4];
            cube.set_all(edge, [next, edge ^ 1, origin, face]);
            cube.store(edge);
        }
    }
    cube.links[..8].copy_from_slice(&VERTEX_EDGES);
    cube
}

/// Request i: a hull carries its length unit, and the limits go by it.
fn units() -> [Example; 10] {
    let cube = cube_of_unit;
    let beside = |by: f64| of_unit(&block([10.0; 3]).moved([by, 0.0, 0.0]), 10);
    let at = |a: &Shape, b: &Shape, x: f32, cache| frame(4, a, b, [x, 0.0, 0.0], cache);
    let alike = |unit, x| at(&cube(unit), &cube(unit), x, SatCache::EMPTY);
    let touching = |separation| at(&beside(-10.0), &beside(10.0), 0.0, axis(2, separation));
    let thin = |high| at(&plate(high), &cube(100), 300.0, SatCache::EMPTY);
    let example = |words, frame, status, cache, count| Example {
        words,
        frame,
        status,
        cache,
        count,
        places: if count == 4 { IN_ORDER } else { NONE },
        retired: 0,
    };
    let kept = SatCache {
        hit: 7,
        ..axis(2, 0x3f00_0000)
    };
    let no_unit = of_unit(&block([1.0; 3]), 2);
    let hit = SatCache {
        hit: 1,
        ..axis(2, 0x3d4c_cccb)
    };
    [
        example(
            "i 1: cubes of half-size 100, unit 100, x = 300",
            alike(100, 300.0),
            0,
            axis(2, 0x42c8_0000),
            0,
        ),
        example(
            "i 2: cubes of half-size 1000, unit 1000, x = 2015: within the speculative distance of 20",
            alike(1000, 2015.0),
            0,
            axis(3, 0x4170_0000),
            4,
        ),
        example(
            "i 3: units 1 and 10, and the transform NaN: refused by 17, not by 3",
            at(&cube(1), &cube(10), f32::NAN, kept),
            17,
            kept,
            0,
        ),
        example(
            "i 4: A of unit 2",
            at(&no_unit, &cube(1), 2.0, SatCache::EMPTY),
            1,
            SatCache::EMPTY,
            0,
        ),
        example(
            "i 5: unit 10, position x = 40960",
            alike(10, 40960.0),
            0,
            axis(2, 0x471f_ec00),
            0,
        ),
        example(
            "i 6: unit 10, position x one float further",
            alike(10, 40960f32.next_up()),
            3,
            SatCache::EMPTY,
            0,
        ),
        example(
            "i 7: unit 10, touching, cached face A with a separation just below the slop: a hit",
            touching(0x3d4c_cccb),
            0,
            hit,
            4,
        ),
        example(
            "i 8: the same with the slop itself: no hit",
            touching(0x3d4c_cccc),
            0,
            axis(3, 0x8000_0000),
            4,
        ),
        example(
            "i 9: unit 100, A's edges along z just 100/1024 long",
            thin(100.0 / 1024.0),
            0,
            axis(2, 0x42c8_0000),
            0,
        ),
        example(
            "i 10: the same one float shorter",
            thin((100.0 / 1024.0f32).next_down()),
            1,
            SatCache::EMPTY,
            0,
        ),
    ]
}

/// Request b: whether two hulls are apart.
pub fn apart() -> [ApartExample; 8] {
    let example = |words, frame, status, apart| ApartExample {
        words,
        frame,
        answer: Apart { status, apart },
    };
    let [limit, above, _] = about(Unit::Metres.speculative_distance());
    let not_finite = |a: &Shape, b: &Shape| frame(4, a, b, [f32::NAN, 0.0, 0.0], SatCache::EMPTY);
    [
        example("b 1: cubes, x = 3", cubes(4, 3.0, SatCache::EMPTY), 0, 1),
        example(
            "b 2: cubes, x = 2: they touch",
            cubes(4, 2.0, SatCache::EMPTY),
            0,
            0,
        ),
        example(
            "b 3: A left of x = 0, B right of it, A's face +x moved to just the speculative distance: not strictly above",
            with_face_at(limit),
            0,
            0,
        ),
        example("b 4: the same one float more", with_face_at(above), 0, 1),
        example(
            "b 5: two wedges edge over edge, 0.03 apart in z: no face says so, one edge pair does",
            wedges(0.03),
            0,
            1,
        ),
        example(
            "b 6: two boxes in one record as A and the transform NaN: refused by 1, and no yes",
            not_finite(&two_boxes(), &cube(1.0, 1.0)),
            1,
            0,
        ),
        example(
            "b 7: a pyramid that touches the cube, with padding lanes outside that win: the call is refused by 5, the question is not",
            padding_that_wins(),
            0,
            0,
        ),
        example(
            "b 8: units 1 and 10 and the transform NaN: refused by 17",
            not_finite(&cube_of_unit(1), &cube_of_unit(10)),
            17,
            0,
        ),
    ]
}

/// Two cubes that meet at x = 0, the plane of A's face +x so far inside of it.
fn with_face_at(separation: f32) -> Vec<u8> {
    let [mut a, b] = [-1.0, 1.0].map(|x| planed(&block([1.0; 3]).moved([x, 0.0, 0.0])));
    let plane = a.plane(1);
    a.numbers[plane + 3] = -separation;
    frame(4, &a, &b, [0.0; 3], SatCache::EMPTY)
}

/// The cube and a pyramid of 5 sides beside its face -x, turned so that a side of its base lies along the face; its padding lanes are
/// one point below the base, and that is the support of the face.
fn padding_that_wins() -> Vec<u8> {
    let mut pyramid = planed(&cone(5));
    pyramid.pad(Padding::Point([0.14933823, 0.96730417, -0.20498952]));
    call_frame(&Call {
        capacity: 4,
        a: cube(1.0, 1.0).lent(),
        b: pyramid.lent(),
        transform: Transform {
            p: Vec3 {
                x: -1.9525049,
                y: 0.34564272,
                z: -0.25938362,
            },
            q: Quat {
                v: Vec3 {
                    x: -0.0018864865,
                    y: 0.0016843535,
                    z: 0.7111233,
                },
                s: -0.7030628,
            },
        },
        cache: SatCache::EMPTY,
    })
}

/// A cube of half-size one metre in a unit of this number.
fn cube_of_unit(unit: usize) -> Shape {
    of_unit(&block([unit as f64; 3]), unit)
}

/// The solid's hull, whose lengths are in a unit of this number, known or not.
fn of_unit(solid: &Solid, unit: usize) -> Shape {
    let mut hull = planed(solid);
    hull.size.unit = unit;
    hull
}

/// A cube of half-size 100 in unit 100 whose corners lie at z = 0 and at this z. Its planes stay where they were.
fn plate(high: f32) -> Shape {
    let mut plate = of_unit(&block([100.0; 3]), 100);
    for corner in 0..8 {
        let place = plate.coordinate(2, corner);
        plate.numbers[place] = [0.0, high][corner / 4];
    }
    plate.fit_box();
    plate
}

/// The solid's hull, its planes worked out from the corners as they are before they are rounded.
fn planed(solid: &Solid) -> Shape {
    let mut hull = hull(solid);
    for face in 0..hull.size.faces {
        let from = hull.plane(face);
        hull.numbers[from..from + 4].copy_from_slice(&plane(solid, face));
    }
    hull
}

/// The normal by Newell's sum, the offset from the first corner.
fn plane(solid: &Solid, face: usize) -> [f32; 4] {
    let corners = solid.faces[face]
        .iter()
        .map(|&corner| solid.corners[corner]);
    let mut sum = [0.0; 3];
    for (from, to) in corners.clone().zip(corners.clone().cycle().skip(1)) {
        for (x, part) in sum.iter_mut().enumerate() {
            let (y, z) = ((x + 1) % 3, (x + 2) % 3);
            *part += (from[y] - to[y]) * (from[z] + to[z]);
        }
    }
    let length = sum.iter().map(|part| part * part).sum::<f64>().sqrt();
    let normal = sum.map(|part| part / length);
    let first = corners.clone().next().expect("a face has corners");
    let offset = (normal.iter().zip(first)).fold(0.0, |sum, (n, x)| sum + n * x);
    [normal[0], normal[1], normal[2], offset].map(|x| x as f32)
}
