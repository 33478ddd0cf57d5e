//! Document 01's own runs and examples.

use crate::codec::{call_frame, flip_frame, root_frame};
use crate::Frame;
use cases::calls::Call;
use cases::shapes::solids::{block, pyramid};
use cases::shapes::Shape;
use cases::Numbers;
use records::{FeaturePair, Quat, SatCache, Transform, Vec3};

/// "Whole case, input and output": the lines and their answers.
pub const WHOLE_CASE: [(&str, &str); 4] = [
    ("1040800000", "9040000000"),
    ("1100030109", "9100090103"),
    ("1040", "ff23"),
    ("zz", "ff21"),
];

/// The face of a block that looks along z.
const TOP: u8 = 5;

/// All of them, one a turn.
pub fn runs(turn: usize, _: &mut Numbers) -> Vec<Frame> {
    let all = all();
    vec![all[turn % all.len()].clone()]
}

/// Roots and flips, the two cubes, and the 64-gon that loses one corner.
pub fn all() -> Vec<Frame> {
    let case = WHOLE_CASE.map(|(line, _)| match crate::hex::read(line.as_bytes()) {
        Some(bytes) => Frame::Bytes(bytes),
        None => Frame::Line(line.into()),
    });
    let roots = [0x4080_0000, 0x4000_0000, 0x0000_0001, 0x8000_0000].map(root_frame);
    let pairs = [[0, 3, 1, 9], [1, 5, 1, 6]].map(|[owner1, index1, owner2, index2]| {
        flip_frame(FeaturePair {
            owner1,
            index1,
            owner2,
            index2,
        })
    });
    let bytes = roots.into_iter().chain(pairs).chain(cubes()).chain(round());
    case.into_iter().chain(bytes.map(Frame::Bytes)).collect()
}

/// A call; B is not turned.
pub fn frame(capacity: i32, a: &Shape, b: &Shape, [x, y, z]: [f32; 3], cache: SatCache) -> Vec<u8> {
    call_frame(&Call {
        capacity,
        a: a.lent(),
        b: b.lent(),
        transform: Transform {
            p: Vec3 { x, y, z },
            q: Quat::IDENTITY,
        },
        cache,
    })
}

/// "Two cubes of half-size 1, faces numbered -x, +x first, identity rotation. B at x = 3: no points, type 2, separation 1,
/// index_a 1; again: hit 1. B at x = 2: the faces tie, so face B, four points, separation 0, type 3. Capacity 3: empty,
/// cache as it was."
fn cubes() -> Vec<Vec<u8>> {
    let cube = Shape::new(&block([1.0; 3]));
    let call = |capacity, x, cache| frame(capacity, &cube, &cube, [x, 0.0, 0.0], cache);
    let apart = SatCache {
        separation: 1f32.to_bits(),
        kind: 2,
        index_a: 1,
        ..SatCache::EMPTY
    };
    let touching = SatCache {
        kind: 3,
        ..SatCache::EMPTY
    };
    vec![
        call(4, 3.0, SatCache::EMPTY),
        call(4, 3.0, apart),
        call(4, 2.0, SatCache::EMPTY),
        call(4, 2.0, touching),
        call(3, 2.0, touching),
    ]
}

/// "A 64-gon that loses one corner is refusal 6": on a block's face, shifted so that one corner goes over its edge or
/// none does; and one corner fewer, which is accepted. It is cut along the sides of the block's face, but for type 6: that is
/// retired and acts as type 0, the two faces tie, so B's is taken, and the block's face is cut along its sides.
fn round() -> Vec<Vec<u8>> {
    let top = Shape::new(&block([1.0, 5.0, 1.0]));
    let mut frames = Vec::new();
    for (sides, shift) in [(64, 0.003), (64, 0.0), (63, 0.003)] {
        let round = Shape::new(&pyramid(sides, 1.0, 1.0));
        let cache = |kind| SatCache {
            kind,
            index_a: TOP,
            index_b: TOP,
            hit: 9,
            ..SatCache::EMPTY
        };
        for kind in [2, 6] {
            frames.push(frame(4, &top, &round, [shift, 0.0, 1.0], cache(kind)));
        }
        for kind in [0, 3, 7] {
            frames.push(frame(4, &round, &top, [-shift, 0.0, -1.0], cache(kind)));
        }
    }
    frames
}
