//! UTF-8 after RFC 3629, by the count of leading one bits in each character's first byte.

pub fn is_utf8(bytes: &[u8]) -> bool {
    let mut rest = bytes;
    while !rest.is_empty() {
        let length = character_length(rest);
        if length == 0 {
            return false;
        }
        rest = &rest[length..];
    }
    true
}

/// Bytes of the character that `rest` begins with, or 0 if there is none.
fn character_length(rest: &[u8]) -> usize {
    let first = rest[0];
    let length = match first.leading_ones() {
        0 => return 1,
        2 => 2,
        3 => 3,
        4 => 4,
        _ => return 0,
    };
    if rest.len() < length {
        return 0;
    }
    // RFC 3629's table: what the second byte may be after each first byte.
    let second = match first {
        0xC2..=0xDF => 0x80..=0xBF,
        0xE0 => 0xA0..=0xBF,
        0xED => 0x80..=0x9F,
        0xE1..=0xEF => 0x80..=0xBF,
        0xF0 => 0x90..=0xBF,
        0xF1..=0xF3 => 0x80..=0xBF,
        0xF4 => 0x80..=0x8F,
        _ => return 0,
    };
    let tail_is_good = rest[2..length].iter().all(|byte| (0x80..=0xBF).contains(byte));
    if second.contains(&rest[1]) && tail_is_good { length } else { 0 }
}
