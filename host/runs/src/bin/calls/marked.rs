//! Document 01's runs of a call: two cubes of half-size 1, and a 64-gon that loses one corner.

use cases::calls::{empty, same_answers, Answer, Call};
use cases::shapes::solids::{block, pyramid};
use cases::shapes::Shape;
use cases::Tally;
use records::{Outcome, Quat, SatCache, Transform, Vec3};
use runs::ours;

/// The face of a block that looks along z.
const TOP: u8 = 5;

/// Not turned.
fn at([x, y, z]: [f32; 3]) -> Transform {
    Transform {
        p: Vec3 { x, y, z },
        q: Quat::IDENTITY,
    }
}

/// The proved answer.
fn collide(capacity: i32, a: &Shape, b: &Shape, by: [f32; 3], cache: SatCache) -> Answer {
    ours(&Call {
        capacity,
        a: a.lent(),
        b: b.lent(),
        transform: at(by),
        cache,
    })
}

pub fn rows() -> Tally {
    let mut t = Tally::default();
    cubes(&mut t);
    for (sides, shift, status) in [(64, 0.003, 6), (64, 0.0, 0), (63, 0.003, 0)] {
        on_a_block(&mut t, sides, shift, status);
    }
    t
}

/// Faces -x, +x first.
fn cubes(t: &mut Tally) {
    let cube = Shape::new(&block([1.0; 3]));
    let call = |capacity, x, cache| collide(capacity, &cube, &cube, [x, 0.0, 0.0], cache);
    let mut row = |what: &str, answer: Answer, right: bool| {
        t.compare(right, || format!("{what}: {answer:?}"));
    };

    let apart = call(4, 3.0, SatCache::EMPTY);
    let wanted = SatCache {
        separation: 1f32.to_bits(),
        kind: 2,
        index_a: 1,
        ..apart.cache
    };
    let right = wanted.hit == 0 && same_answers(&apart, &empty(0, wanted));
    row("B at x = 3", apart, right);

    let again = call(4, 3.0, apart.cache);
    let wanted = SatCache {
        hit: 1,
        ..apart.cache
    };
    let right = same_answers(&again, &empty(0, wanted));
    row("B at x = 3 again", again, right);

    let touching = call(4, 2.0, SatCache::EMPTY);
    let Outcome {
        status,
        contact,
        retired,
    } = touching.outcome;
    let right = (status, contact.count, retired) == (0, 4, 0)
        && contact.points.iter().all(|point| point.separation == 0.0)
        && (touching.cache.kind, touching.cache.separation) == (3, 0);
    row("B at x = 2", touching, right);

    let small = call(3, 2.0, touching.cache);
    let right = same_answers(&small, &empty(0, touching.cache));
    row("capacity 3", small, right);
}

/// A face of so many corners on a block, shifted so that one corner goes over the block's edge or none does. The
/// block's face is the reference face: by a cached face as A and as B, as B by a full search too, whether the cache's type is
/// 0 or a retired one. Only an accepted call with a retired type is marked.
fn on_a_block(t: &mut Tally, sides: usize, shift: f32, status: u8) {
    let top = Shape::new(&block([1.0, 5.0, 1.0]));
    let round = Shape::new(&pyramid(sides, 1.0, 1.0));
    let mut row = |a: &Shape, b: &Shape, by: [f32; 3], kind: u8| {
        let cache = SatCache {
            kind,
            index_a: TOP,
            index_b: TOP,
            hit: 9,
            ..SatCache::EMPTY
        };
        let answer = collide(4, a, b, by, cache);
        let Outcome {
            status: came,
            contact,
            retired,
        } = answer.outcome;
        let right = if status == 0 {
            (came, contact.count) == (0, 4) && retired == u8::from(cache.has_retired_type())
        } else {
            same_answers(&answer, &empty(status, cache))
        };
        t.compare(right, || {
            format!("{sides}-gon shifted by {shift}, type {kind}: {answer:?}")
        });
    };
    row(&top, &round, [shift, 0.0, 1.0], 2);
    for kind in [0, 3].into_iter().chain(SatCache::RETIRED_TYPES) {
        row(&round, &top, [-shift, 0.0, -1.0], kind);
    }
}
