//! Damage to the bytes, CRCs and lengths included.
use super::PairBytes;
use crate::generate::{
    plan::{repair_crc, repair_log},
    prng::Prng,
    values,
};

pub fn cut(prng: &mut Prng, bytes: &mut Vec<u8>) {
    bytes.truncate(prng.index(bytes.len() + 1));
}

pub fn flip_bit(prng: &mut Prng, bytes: &mut [u8]) {
    if !bytes.is_empty() {
        bytes[prng.index(bytes.len())] ^= 1 << prng.below(8);
    }
}

pub fn flip_bit_of_last(prng: &mut Prng, bytes: &mut [u8], last: usize) {
    let from = bytes.len().saturating_sub(last);
    flip_bit(prng, &mut bytes[from..]);
}

pub fn repaired_bit_of_snapshot(prng: &mut Prng, pair: &mut PairBytes) {
    flip_bit(prng, &mut pair.snapshot);
    repair_crc(&mut pair.snapshot);
}

pub fn repaired_bit_of_log(prng: &mut Prng, pair: &mut PairBytes) {
    flip_bit(prng, &mut pair.log);
    repair_log(&mut pair.log);
}

/// The first bytes of frames, as far as lengths lead.
fn frame_starts(log: &[u8]) -> Vec<usize> {
    let mut starts = Vec::new();
    let mut at = 0;
    while log.len() - at >= 12 {
        starts.push(at);
        let length = u32::from_le_bytes(log[at..at + 4].try_into().unwrap()) as usize;
        at = (at + length + 12).min(log.len());
    }
    starts
}

pub fn length_crc(prng: &mut Prng, pair: &mut PairBytes) {
    let starts = frame_starts(&pair.log);
    if !starts.is_empty() {
        let at = prng.pick(&starts);
        flip_bit(prng, &mut pair.log[at..at + 8]);
    }
}

/// Eight bytes or a few more after the last whole frame are a frame's head, and no tail.
pub fn stray_head(prng: &mut Prng, pair: &mut PairBytes) {
    let end = frame_starts(&pair.log).last().copied().unwrap_or(0);
    pair.log.truncate(end);
    let length = prng.between(7, 13) as usize;
    pair.log.extend(prng.bytes(length));
}

/// A length field edited and every CRC made right: other bytes are the payload then.
pub fn length_field(prng: &mut Prng, pair: &mut PairBytes) {
    let starts = frame_starts(&pair.log);
    if !starts.is_empty() {
        let at = prng.pick(&starts);
        let length = u32::from_le_bytes(pair.log[at..at + 4].try_into().unwrap());
        let length = values::edited(prng, u64::from(length)) as u32;
        pair.log[at..at + 4].copy_from_slice(&length.to_le_bytes());
        repair_log(&mut pair.log);
    }
}

pub fn payload_crc(prng: &mut Prng, pair: &mut PairBytes) {
    let starts = frame_starts(&pair.log);
    if !starts.is_empty() {
        let at = prng.pick(&starts);
        let length = u32::from_le_bytes(pair.log[at..at + 4].try_into().unwrap()) as usize;
        let end = (at + length + 12).min(pair.log.len());
        flip_bit(prng, &mut pair.log[at + 8..end]);
    }
}

pub fn any_byte(prng: &mut Prng, pair: &mut PairBytes) {
    let of_log = prng.permille(500) && !pair.log.is_empty();
    let bytes = if of_log { &mut pair.log } else { &mut pair.snapshot };
    if bytes.is_empty() {
        return;
    }
    let place = prng.index(bytes.len());
    bytes[place] = prng.next() as u8;
    if of_log {
        repair_log(bytes);
    } else {
        repair_crc(bytes);
    }
}
