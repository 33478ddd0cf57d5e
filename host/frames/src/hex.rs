//! Lowercase hexadecimal.

const DIGITS: &[u8; 16] = b"0123456789abcdef";

/// Two digits a byte.
pub fn written(bytes: &[u8]) -> Vec<u8> {
    let digit = |value: u8| DIGITS[usize::from(value)];
    let both = |&byte: &u8| [digit(byte >> 4), digit(byte & 15)];
    bytes.iter().flat_map(both).collect()
}

/// The bytes of such a line, if it is one.
pub fn read(line: &[u8]) -> Option<Vec<u8>> {
    let (pairs, []) = line.as_chunks() else {
        return None;
    };
    let byte = |&[high, low]: &[u8; 2]| Some(value(high)? << 4 | value(low)?);
    pairs.iter().map(byte).collect()
}

fn value(digit: u8) -> Option<u8> {
    match digit {
        b'0'..=b'9' => Some(digit - b'0'),
        b'a'..=b'f' => Some(digit - b'a' + 10),
        _ => None,
    }
}
