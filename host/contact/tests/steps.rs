//! A step beside the calls that it stands for, and what it refuses.

use cases::calls::{caches, same_answers, Answer};
use cases::pairs::{moved, placed, turned_or_not};
use cases::settled::Stack as Settled;
use cases::shapes::breaks::{break_rule, RULES};
use cases::shapes::kinds::COMPACT;
use cases::shapes::solids::block;
use cases::shapes::Shape;
use cases::{convert, Numbers};
use contact::*;

const BESIDE: Transform = at(2.0);

const fn at(x: f32) -> Transform {
    Transform {
        p: Vec3 { x, y: 0.0, z: 0.0 },
        q: Quat::IDENTITY,
    }
}

fn cube() -> Shape {
    Shape::new(&block([1.0; 3]))
}

/// A stack of these, each by its number.
fn stack_of<'a>(shapes: impl IntoIterator<Item = &'a Shape>) -> Stack {
    let mut stack = Stack::new();
    for (number, shape) in shapes.into_iter().enumerate() {
        assert_eq!(stack.add(&shape.lent().into()), Ok(number as u32));
    }
    stack
}

/// Every pair is answered as a call on its two hulls answers it, and has its next cache.
fn hold(stack: &Stack, pairs: &[Pair], transforms: &[Transform], caches: &mut [SatCache]) {
    let hulls = stack.lend();
    let mut room = StepRoom::new();
    let mut wanted = caches.to_vec();
    let stepped = step(&hulls, pairs, transforms, caches, &mut room).expect("there is room");
    let mut points = 0;
    assert_eq!(stepped.len(), pairs.len());
    for (place, answer) in stepped.answers().enumerate() {
        let Pair { a, b } = pairs[place];
        let [a, b] = [a, b].map(|number| hulls.hull(number).expect("the hull is there"));
        let called = Answer {
            outcome: collide(&a, &b, transforms[place], &mut wanted[place]),
            cache: wanted[place],
        };
        let came = Answer {
            outcome: answer.outcome(),
            cache: caches[place],
        };
        assert!(same_answers(&called, &came), "{called:?}, {came:?}");
        assert_eq!(answer.pair(), pairs[place]);
        assert_eq!(answer.refusal(), called.outcome.refusal());
        assert_eq!(answer.points().len(), called.outcome.points().len());
        let refused = stepped.refused(place).map(|refused| refused.cause);
        let by_call = Refused::of(&called.outcome, &a, &b).map(Cause::Call);
        assert_eq!(refused, by_call);
        points += called.outcome.points().len();
    }
    assert_eq!(stepped.points(), points);
    for number in 0..stack.len() as u32 {
        let rule = hulls.hull(number).and_then(|hull| hull.check().err());
        assert_eq!(stepped.broken_rule(number), rule);
    }
}

#[test]
fn as_call_by_call() {
    let mut numbers = Numbers::new(1);
    let n = &mut numbers;
    for _ in 0..40 {
        let any = |n: &mut Numbers| {
            let solid = COMPACT[n.below(COMPACT.len())].1(n);
            turned_or_not(solid, n)
        };
        let mut shapes: Vec<Shape> = (0..6).map(|_| any(n)).collect();
        let mut broken = any(n);
        break_rule(2 + n.below(usize::from(RULES) - 1) as u8, &mut broken, n);
        shapes.push(broken);
        let stack = stack_of(&shapes);
        let mut pairs = Vec::new();
        let mut transforms = Vec::new();
        let mut cached = Vec::new();
        for _ in 0..40 {
            let (a, b) = (n.below(shapes.len()), n.below(shapes.len()));
            pairs.push(Pair {
                a: a as u32,
                b: b as u32,
            });
            let (size_a, size_b) = (shapes[a].size, shapes[b].size);
            // The last is broken, and nothing is laid on it.
            let last = shapes.len() - 1;
            transforms.push(if a < last && b < last {
                let pair = placed(shapes[a].clone(), shapes[b].clone(), n);
                convert::our_transform(pair.transform)
            } else {
                BESIDE
            });
            cached.push(match n.below(8) {
                0 => caches::out_of_range(size_a, size_b, n),
                1..=4 => caches::in_range(size_a, size_b, n),
                _ => SatCache::EMPTY,
            });
        }
        transforms[0].p.x = f32::NAN;
        for _ in 0..3 {
            hold(&stack, &pairs, &transforms, &mut cached);
            for transform in &mut transforms[1..] {
                let there = convert::transform(*transform);
                *transform = convert::our_transform(moved(there, 3e-4, Unit::Metres, n));
            }
        }
    }
}

#[test]
fn settled_logs() {
    let settled = Settled::new(40, 200, &mut Numbers::new(2));
    let stack = stack_of(&settled.logs);
    let pairs = settled.pairs.iter().map(|pair| Pair {
        a: pair.a as u32,
        b: pair.b as u32,
    });
    let pairs: Vec<Pair> = pairs.collect();
    let transforms: Vec<Transform> = settled.pairs.iter().map(|pair| pair.transform).collect();
    let mut caches = vec![SatCache::EMPTY; 200];
    for _ in 0..3 {
        hold(&stack, &pairs, &transforms, &mut caches);
    }
    let hits = caches.iter().filter(|cache| cache.hit()).count();
    assert!(hits > 190, "{hits}");
}

/// A refused pair keeps every bit of its cache and has an empty contact; the others are answered all the same.
#[test]
fn refused_pairs() {
    let (good, mut broken) = (cube(), cube());
    broken.numbers[0] = f32::NAN;
    let millimetres = cube().in_unit(Unit::Millimetres);
    let stack = stack_of([&good, &broken, &millimetres]);
    let odd = SatCache {
        separation: 0x7fc1_2345,
        kind: 2,
        index_a: 9,
        index_b: 255,
        hit: 7,
    };
    let pair = |a, b| Pair { a, b };
    let cases = [
        (pair(0, 0), BESIDE, SatCache::EMPTY, None),
        (pair(1, 9), at(f32::NAN), odd, Some(Refusal::HullA)),
        (pair(0, 1), at(f32::NAN), odd, Some(Refusal::HullB)),
        (pair(3, 0), BESIDE, odd, Some(Refusal::HullA)),
        (pair(u32::MAX, 1), BESIDE, odd, Some(Refusal::HullA)),
        (pair(0, 3), BESIDE, odd, Some(Refusal::HullB)),
        (pair(0, u32::MAX), BESIDE, odd, Some(Refusal::HullB)),
        (pair(0, 2), at(f32::NAN), odd, Some(Refusal::Units)),
        (pair(2, 0), at(f32::NAN), odd, Some(Refusal::Units)),
        (pair(0, 0), at(f32::NAN), odd, Some(Refusal::Transform)),
        (pair(0, 0), BESIDE, odd, Some(Refusal::Cache)),
        (pair(0, 0), BESIDE, SatCache { kind: 7, ..odd }, None),
    ];
    let pairs = cases.map(|(pair, ..)| pair);
    let transforms = cases.map(|(_, transform, ..)| transform);
    let mut caches = cases.map(|(_, _, cache, _)| cache);
    let mut room = StepRoom::new();
    let hulls = stack.lend();
    let stepped = step(&hulls, &pairs, &transforms, &mut caches, &mut room).expect("room");
    for (place, (_, _, cache, refusal)) in cases.into_iter().enumerate() {
        let answer = stepped.answer(place);
        assert_eq!(answer.refusal(), refusal, "{place}");
        if refusal.is_some() {
            assert_eq!(answer.outcome().contact, Contact::EMPTY, "{place}");
            assert_eq!(caches[place], cache, "{place}");
            assert!(!answer.retired_type_read(), "{place}");
        } else {
            assert_eq!((answer.points().len(), caches[place].kind), (4, 3));
        }
    }
    assert_eq!(stepped.points(), 8);
    let marked: Vec<bool> = stepped.answers().map(|a| a.retired_type_read()).collect();
    assert_eq!(marked.iter().filter(|&&mark| mark).count(), 1);
    assert!(marked[11]);
    let broken: Vec<(u32, Rule)> = stepped.broken_hulls().collect();
    assert_eq!(broken, [(1, Rule::Numbers)]);
    let words = |place| stepped.refused(place).expect("refused").to_string();
    assert!(words(1).starts_with(
        "pair 1, of hulls 1 and 9: refusal 1: hull A breaks a rule: H8 is broken: the box has x low = NaN, not within 4096 m; "
    ));
    assert!(words(3)
        .starts_with("pair 3, of hulls 3 and 0: refusal 1: there is no hull 3: 3 are lent; "));
    assert!(words(7).starts_with(
        "pair 7, of hulls 0 and 2: refusal 17: hull A is in metres and hull B in millimetres; "
    ));
}

/// Nothing is written where a list is too short, and what is said names it.
#[test]
fn no_room() {
    let cube = cube();
    let stack = stack_of([&cube]);
    let (hulls, pairs) = (stack.lend(), [Pair { a: 0, b: 0 }; 3]);
    let odd = SatCache {
        hit: 9,
        ..SatCache::EMPTY
    };
    let mut room = StepRoom::new();
    room.grow(2, 4);
    room.judged.fill(77);
    let (mut caches, mut one) = ([odd; 3], [odd; 1]);
    let error = step(&hulls, &pairs, &[BESIDE; 2], &mut caches, &mut room).err();
    let (pairs_lent, found) = (3, 2);
    assert_eq!(
        error,
        Some(NoRoom::Transforms {
            pairs: pairs_lent,
            found
        })
    );
    let words =
        "refusal 21: there are 3 pairs and 2 transforms; what to do: lend one for each pair";
    assert_eq!(error.expect("no room").to_string(), words);
    let error = step(&hulls, &pairs, &[BESIDE; 3], &mut one, &mut room).err();
    let words = "refusal 21: there are 3 pairs and 1 caches; what to do: lend one for each pair";
    assert_eq!(error.expect("no room").to_string(), words);
    assert_eq!((caches, one), ([odd; 3], [odd; 1]));
    assert_eq!(room.judged, [77; 2]);
    assert!(room.floats.iter().all(|&x| x == 0.0) && room.bytes.iter().all(|&x| x == 0));

    // More than is needed keeps what stands behind.
    let mut caches = [odd; 5];
    let stepped = step(&hulls, &pairs, &[BESIDE; 4], &mut caches, &mut room).expect("room");
    assert_eq!(stepped.points(), 12);
    assert_eq!(caches[3..], [odd; 2]);
    assert_eq!(room.judged, [0, 77]);
    assert!(room.floats[3 * PAIR_FLOATS..].iter().all(|&x| x == 0.0));
}

/// Each list of the bare step one place too short, and one longer.
#[test]
fn bare_lists() {
    let cube = cube();
    let stack = stack_of([&cube, &cube]);
    let hulls = stack.lend();
    let words: Vec<u32> = hulls.records.iter().flat_map(|r| r.words()).collect();
    // Half a pair and a part of a hull are none.
    let (pairs, part) = ([0, 1, 1, 0, 1], [words.clone(), vec![0; 5]].concat());
    let transforms: Vec<f32> = [2.0, 0.0, 0.0, 0.0, 0.0, 0.0, 1.0].repeat(2);
    for short in 0..6 {
        let long = |list: usize, width: usize| width * 2 + 1 - 2 * usize::from(list == short);
        let mut judged = vec![77; long(0, 1)];
        let transforms = &[&transforms[..], &[0.0]].concat()[..long(1, TRANSFORM_FLOATS)];
        let mut caches = vec![0x0500_0000; long(2, CACHE_WORDS)];
        let mut floats = vec![f32::MAX; long(3, PAIR_FLOATS)];
        let mut bytes = vec![99; long(4, PAIR_BYTES)];
        let stepped = step_lists(
            hulls.numbers,
            hulls.links,
            &part,
            &pairs,
            transforms,
            &mut judged,
            &mut caches,
            &mut floats,
            &mut bytes,
        );
        if short < 5 {
            let (status, points) = (21, 0);
            assert_eq!(stepped, Step { status, points }, "{short}");
            assert!(judged.iter().all(|&byte| byte == 77));
            assert!(caches.iter().all(|&word| word == 0x0500_0000));
            assert!(floats.iter().all(|&float| float == f32::MAX));
            assert!(bytes.iter().all(|&byte| byte == 99));
            continue;
        }
        let (status, points) = (0, 8);
        assert_eq!(stepped, Step { status, points });
        assert_eq!(judged, [0, 0, 77]);
        assert_eq!(
            (caches[4], floats[38], bytes[48]),
            (0x0500_0000, f32::MAX, 99)
        );
        for place in 0..2 {
            let cache = SatCache::of_words([caches[2 * place], caches[2 * place + 1]]);
            assert_eq!((cache.kind, cache.hit), (3, 0));
            assert_eq!(bytes[24 * place..][..4], [0, 4, 0, 0]);
            assert_eq!(bytes[24 * place + 20..][..4], [0, 1, 2, 3]);
        }
    }
    let nothing = step_lists(&[], &[], &[], &[], &[], &mut [], &mut [], &mut [], &mut []);
    let (status, points) = (0, 0);
    assert_eq!(nothing, Step { status, points });
}

/// Records that name one part, overlapping parts and parts outside of the lists.
#[test]
fn records() {
    let cube = cube();
    let stack = stack_of([&cube, &cube]);
    let lent = stack.lend();
    let first = lent.records[0];
    let last = lent.records[1];
    let records = [
        first,
        first,
        HullRecord {
            numbers: first.numbers + 1,
            ..first
        },
        last,
        HullRecord {
            numbers: last.numbers + 1,
            ..last
        },
        HullRecord {
            links: u32::MAX,
            ..first
        },
        HullRecord {
            vertices: u32::MAX,
            half_edges: u32::MAX,
            faces: u32::MAX,
            ..first
        },
        HullRecord { unit: 3, ..first },
    ];
    let hulls = Hulls {
        records: &records,
        ..lent
    };
    let rules = [0, 0, 8, 0, 1, 1, 1, 1];
    let pairs: Vec<Pair> = (0..8).map(|b| Pair { a: 1, b }).collect();
    let (mut caches, mut room) = ([SatCache::EMPTY; 8], StepRoom::new());
    let stepped = step(&hulls, &pairs, &[BESIDE; 8], &mut caches, &mut room).expect("room");
    for (number, rule) in (0..).zip(rules) {
        let told = stepped.broken_rule(number);
        assert_eq!(told, Rule::of_number(rule), "{number}");
        let answer = stepped.answer(number as usize);
        assert_eq!(answer.refusal().is_some(), rule != 0, "{number}");
    }
    assert_eq!(stepped.points(), 12);
    let place = |number| stepped.broken(number).expect("broken").place;
    assert_eq!(place(4), "its numbers end at 109, and 108 are lent");
    assert_eq!(place(5), "its links end at 4294967405, and 220 are lent");
    assert!(place(7).starts_with("the unit is 3 per metre"));
    assert!(hulls.hull(4).is_none() && hulls.hull(8).is_none() && hulls.hull(2).is_some());

    let (mut other, size) = (Stack::new(), cube.size);
    assert_eq!(
        other.add(&Hull::lent(size, &cube.numbers[1..], &cube.links)),
        Err(StackError::Lists(HullError::Numbers {
            wanted: Some(54),
            found: 53
        }))
    );
    let unit = 1 << 32;
    let odd = HullSize { unit, ..size };
    let full = other.add(&Hull::lent(odd, &cube.numbers, &cube.links));
    assert_eq!((full, other.len()), (Err(StackError::Full), 0));
}

/// On many threads at once, and on one that has no more stack than is stated beside its own.
#[test]
fn threads() {
    let run = || {
        let settled = Settled::new(10, 100, &mut Numbers::new(3));
        let stack = stack_of(&settled.logs);
        let pairs = settled.pairs.iter().map(|pair| Pair {
            a: pair.a as u32,
            b: pair.b as u32,
        });
        let pairs: Vec<Pair> = pairs.collect();
        let transforms: Vec<Transform> = settled.pairs.iter().map(|pair| pair.transform).collect();
        let (mut caches, mut room) = (vec![SatCache::EMPTY; 100], StepRoom::new());
        let stepped = step(&stack.lend(), &pairs, &transforms, &mut caches, &mut room);
        (stepped.expect("room").points(), caches, room.bytes)
    };
    let alone = run();
    let threads: Vec<_> = (0..4).map(|_| std::thread::spawn(run)).collect();
    for thread in threads {
        assert!(thread.join().expect("no step faults") == alone);
    }
    let small = std::thread::Builder::new().stack_size(96 * 1024);
    let thread = small.spawn(run).expect("a thread");
    assert!(thread.join().expect("no step faults") == alone);
}
