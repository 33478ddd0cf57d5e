//! Frames whose length is not the right one, and sizes of hulls about each limit.

use super::calls::{any_frame, any_given};
use crate::codec::{call_frame, FLIP, HULL_A, ROOT, UNIT_AND_SIZES};
use crate::Frame;
use cases::shapes::solids::pyramid;
use cases::shapes::Shape;
use cases::Numbers;
use records::HullSize;

/// Each length up to twelve bytes in turn.
pub fn small(turn: usize, n: &mut Numbers) -> Vec<Frame> {
    let frame = |kind| {
        let mut frame = vec![kind];
        frame.resize(1 + turn % 12, n.word() as u8);
        Frame::Bytes(frame)
    };
    [ROOT, FLIP].map(frame).to_vec()
}

/// By a few bytes, to each length of the head in turn, or anywhere; or by a whole frame after it.
pub fn calls(turn: usize, n: &mut Numbers) -> Vec<Frame> {
    let right = any_frame(n);
    let (head, anywhere) = (turn % (HULL_A + UNIT_AND_SIZES), n.below(right.len()));
    let by = 1 + turn % 4;
    let [mut longer, mut twice] = [0; 2].map(|_| right.clone());
    longer.resize(right.len() + by, n.word() as u8);
    twice.extend(&right);
    let cut = |length: usize| right[..length].to_vec();
    let frames = [
        cut(right.len() - by),
        cut(head),
        cut(anywhere),
        longer,
        twice,
    ];
    frames.map(Frame::Bytes).to_vec()
}

/// The bytes of a unit, which stand before the sizes.
const UNIT: usize = 2;

/// One byte of a size other than it was: most often the length no longer fits.
pub fn sizes_changed(turn: usize, n: &mut Numbers) -> Vec<Frame> {
    let given = any_given(n);
    let mut frame = call_frame(&given.call());
    let hull_a = given.a.size;
    let hull_b = HULL_A
        + UNIT_AND_SIZES
        + 4 * hull_a.numbers().expect("small")
        + hull_a.links().expect("small");
    let from = [HULL_A, hull_b][turn % 2] + UNIT;
    let byte = &mut frame[from + turn / 2 % (UNIT_AND_SIZES - UNIT)];
    *byte = match n.below(3) {
        0 => byte.wrapping_add(1),
        1 => byte.wrapping_sub(1),
        _ => n.word() as u8,
    };
    vec![Frame::Bytes(frame)]
}

/// Counts of vertices, half-edges and faces at each limit of H1, beside it and far beyond it.
const COUNTS: [&[usize]; 3] = [
    &[0, 1, 3, 4, 5, 8, 127, 128, 129, 132, 133, 255, 256],
    &[0, 2, 10, 11, 12, 13, 14, 254, 255, 256, 257, 258],
    &[0, 1, 3, 4, 5, 127, 128, 129, 255, 256],
];
const LARGEST: [usize; 3] = [0, 1000, 65535];

/// Beside a tetrahedron, a hull of these sizes makes the longest frame that a program reads: 10,000 bytes.
const LONGEST: [usize; 3] = [128, 1476, 127];

/// A hull of such sizes, its lists of fitting length filled anyhow, beside a good one on either side.
pub fn about_limits(turn: usize, n: &mut Numbers) -> Vec<Frame> {
    let mut given = any_given(n);
    given.capacity = [4, 4, 4, 3, i32::MAX][n.below(5)];
    let side = turn / 100 + turn;
    let [vertices, half_edges, faces] = match turn % 100 {
        98 => LONGEST,
        99 => [0; 3].map(|_| LARGEST[n.below(3)]),
        _ => {
            let (which, good) = (n.below(4), [4, 12, 4]);
            [0, 1, 2].map(|place| {
                let counts = COUNTS[place];
                if place == which || which == 3 {
                    counts[turn / 4 % counts.len()]
                } else {
                    good[place]
                }
            })
        }
    };
    if turn % 100 == 98 {
        *given.side(side + 1) = Shape::any(&pyramid(3, 1.0, 1.0), n);
    }
    let size = HullSize {
        unit: 1,
        vertices,
        half_edges,
        faces,
    };
    *given.side(side) = filled(size, n);
    vec![Frame::Bytes(call_frame(&given.call()))]
}

/// Zeros, ones, or any links; and numbers of one sort.
fn filled(size: HullSize, n: &mut Numbers) -> Shape {
    let number = [0.0, 1.0, n.float()][n.below(3)];
    let most = 1 + n.below(256);
    Shape {
        numbers: vec![number; size.numbers().expect("small")],
        links: (0..size.links().expect("small"))
            .map(|_| n.below(most) as u8)
            .collect(),
        size,
    }
}
