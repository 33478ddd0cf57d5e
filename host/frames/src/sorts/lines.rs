//! Lines that are not lowercase hexadecimal, and lines about the longest that is read.

use super::calls::any_frame;
use super::small;
use crate::codec::{CALL, ROOT};
use crate::{hex, Frame, LONGEST_LINE};
use cases::Numbers;

/// A right line: a root, a pair or a call.
fn right(n: &mut Numbers) -> Vec<u8> {
    let turn = n.below(512);
    let frame = match n.below(3) {
        0 => small::roots(turn, n).swap_remove(0),
        1 => small::pairs(turn, n).swap_remove(0),
        _ => Frame::Bytes(any_frame(n)),
    };
    frame.line().into_owned()
}

/// A digit too few or too many, at either end; or one digit alone.
pub fn odd(turn: usize, n: &mut Numbers) -> Vec<Frame> {
    let mut line = right(n);
    match turn % 5 {
        0 => {
            line.pop();
        }
        1 => {
            line.remove(0);
        }
        2 => line.push(b'0'),
        3 => line.insert(0, b'1'),
        _ => line.truncate(1),
    }
    vec![Frame::Line(line)]
}

/// One letter or all of them.
pub fn upper_case(turn: usize, n: &mut Numbers) -> Vec<Frame> {
    loop {
        let mut line = right(n);
        let letters: Vec<usize> = (0..line.len()).filter(|&i| line[i] > b'9').collect();
        match (letters.len(), turn % 3) {
            (0, _) => continue,
            (_, 0) => line.make_ascii_uppercase(),
            (count, _) => line[letters[n.below(count)]].make_ascii_uppercase(),
        }
        return vec![Frame::Line(line)];
    }
}

/// Each byte in turn that is no digit and no line's end, in the place of a digit: the first, the last or any. Some more
/// that other readers take: spaces, a carriage return, a sign, `0x`.
pub fn not_hex(turn: usize, n: &mut Numbers) -> Vec<Frame> {
    let digit = |byte: &u8| byte.is_ascii_digit() || (b'a'..=b'f').contains(byte);
    let others = (0..=255).filter(|byte| !digit(byte) && *byte != b'\n');
    let other = others.cycle().nth(turn).expect("it goes round");
    let mut lines = vec![right(n), right(n)];
    let line = &mut lines[0];
    let place = [0, line.len() - 1, n.below(line.len())][turn % 3];
    line[place] = other;
    let line = &mut lines[1];
    match turn % 6 {
        0 => line.push(b'\r'),
        1 => line.extend(b" \r"),
        2 => line.splice(0..0, *b"0x").for_each(drop),
        3 => line.insert(0, b'+'),
        4 => line.extend(b"zz"),
        _ => line.splice(2..2, *b"  ").for_each(drop),
    }
    lines.into_iter().map(Frame::Line).collect()
}

/// From three fewer to three more, of digits or with another character among them; and some that are far too long.
pub fn about_longest(turn: usize, n: &mut Numbers) -> Vec<Frame> {
    let far = LONGEST_LINE + 1 + n.below(150_000);
    let length = match turn % 8 {
        7 => far,
        place => LONGEST_LINE + [3, 4, 2, 5, 1, 6, 0][place] - 3,
    };
    let kind = [ROOT, CALL, 0x13][turn % 3];
    let mut line = hex::written(&[kind]);
    line.resize(length, b"07af"[n.below(4)]);
    if n.below(3) == 0 {
        line[n.below(length)] = b"gG \r"[n.below(4)];
    }
    match hex::read(&line) {
        Some(bytes) => vec![Frame::Bytes(bytes)],
        None => vec![Frame::Line(line)],
    }
}
