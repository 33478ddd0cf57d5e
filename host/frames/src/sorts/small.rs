//! Roots, pairs, and frames that are nothing.

use crate::codec::{flip_frame, root_frame, CALL, FLIP, ROOT};
use crate::Frame;
use cases::Numbers;
use records::FeaturePair;

fn byte(n: &mut Numbers) -> u8 {
    n.word() as u8
}

/// Each exponent with both signs in turn and the ends of its significands; floats of every sort; numbers about squares,
/// whose roots are exact or near the middle of two floats.
pub fn roots(turn: usize, n: &mut Numbers) -> Vec<Frame> {
    let exponent = (turn as u32 % 512) << 23;
    let ends = [0, 1, 0x3f_ffff, 0x40_0000, 0x7f_ffff];
    let mut roots = vec![
        exponent | ends[turn % ends.len()],
        exponent | n.below(1 << 23) as u32,
        n.word() as u32,
        n.float().to_bits(),
        n.word() as u32 | 0x7f80_0001,
        1 << n.below(24),
    ];
    for bits in [12, 24] {
        let root = (1 << (bits - 1) | n.below(1 << (bits - 1))) as f32;
        let square = (root * root).to_bits();
        roots.push([square, square - 1, square + 1][n.below(3)]);
    }
    let frames = roots.into_iter().map(root_frame);
    frames.map(Frame::Bytes).collect()
}

/// Owners 0 and 1 with any numbers, and each owner in turn on either side.
pub fn pairs(turn: usize, n: &mut Numbers) -> Vec<Frame> {
    let owner = (turn % 256) as u8;
    let mut pair = |owner1, owner2| FeaturePair {
        owner1,
        index1: byte(n),
        owner2,
        index2: byte(n),
    };
    let owners = [
        (0, 0),
        (0, 1),
        (1, 0),
        (1, 1),
        (owner, 0),
        (1, owner),
        (owner, owner),
    ];
    let pairs = owners.map(|(owner1, owner2)| pair(owner1, owner2));
    let frames = pairs.into_iter().map(flip_frame);
    frames.map(Frame::Bytes).collect()
}

/// No byte, or a kind and nothing else.
pub fn shortest(turn: usize, _: &mut Numbers) -> Vec<Frame> {
    let frames = [vec![], vec![ROOT], vec![], vec![FLIP], vec![], vec![CALL]];
    vec![Frame::Bytes(frames[turn % frames.len()].clone())]
}

/// Each byte in turn that is no kind, alone and before others.
pub fn unknown_kinds(turn: usize, n: &mut Numbers) -> Vec<Frame> {
    let others = (0..=255).filter(|kind| ![ROOT, FLIP, CALL].contains(kind));
    let kind = others.cycle().nth(turn).expect("it goes round");
    let mut frames = vec![vec![kind]];
    for most in [6, 120] {
        let mut frame = vec![kind];
        frame.extend((0..n.below(most)).map(|_| byte(n)));
        frames.push(frame);
    }
    frames.into_iter().map(Frame::Bytes).collect()
}
