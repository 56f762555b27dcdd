//! Smaller snapshots and logs that are still laid out as such: a record, a caption, a frame or an
//! operation left out, with counts, sequences and CRCs to match.
use crate::generate::plan::{repair_crc, with_crc};
use model::encode::framed;

/// A snapshot parted at its records, as far as its fields lead.
struct Parted<'a> {
    header: &'a [u8],
    d: usize,
    records: Vec<&'a [u8]>,
    rest: &'a [u8],
}

fn u32_at(bytes: &[u8], at: usize) -> Option<usize> {
    Some(u32::from_le_bytes(bytes.get(at..at + 4)?.try_into().unwrap()) as usize)
}

fn u64_at(bytes: &[u8], at: usize) -> Option<u64> {
    Some(u64::from_le_bytes(bytes.get(at..at + 8)?.try_into().unwrap()))
}

fn part_snapshot(snapshot: &[u8]) -> Option<Parted<'_>> {
    let body = snapshot.get(..snapshot.len().checked_sub(4)?)?;
    let header_length = if u32_at(body, 8)? == 1 { 48 } else { 52 };
    let d = u32_at(body, 12)?;
    let header = body.get(..header_length)?;
    let mut rest = &body[header_length..];
    let mut records = Vec::new();
    while let Some(caption) = u32_at(rest, 9 + 4 * d) {
        let length = 13 + 4 * d + caption;
        if length > rest.len() || d > 4096 {
            break;
        }
        records.push(&rest[..length]);
        rest = &rest[length..];
    }
    Some(Parted { header, d, records, rest })
}

impl Parted<'_> {
    /// Put together again with another count.
    fn joined(&self, records: &[Vec<u8>], count: u64) -> Vec<u8> {
        let mut body = self.header.to_vec();
        let at = body.len() - 8;
        body[at..].copy_from_slice(&count.to_le_bytes());
        body.extend(records.concat());
        body.extend(self.rest);
        with_crc(&body)
    }
}

pub fn smaller_snapshots(snapshot: &[u8]) -> Vec<Vec<u8>> {
    let mut smaller = Vec::new();
    let Some(parted) = part_snapshot(snapshot) else { return smaller };
    let records: Vec<Vec<u8>> = parted.records.iter().map(|record| record.to_vec()).collect();
    let count = u64_at(parted.header, parted.header.len() - 8).unwrap();
    for place in 0..records.len() {
        let mut fewer = records.clone();
        fewer.remove(place);
        smaller.push(parted.joined(&fewer, count.saturating_sub(1)));
    }
    let empty = 13 + 4 * parted.d;
    for place in 0..records.len() {
        if records[place].len() > empty {
            let mut without = records.clone();
            without[place].truncate(empty);
            without[place][empty - 4..].fill(0);
            smaller.push(parted.joined(&without, count));
        }
    }
    // Small numbers read more easily: seed, sequence.
    for at in [parted.header.len() - 24, parted.header.len() - 16] {
        let value = u64_at(parted.header, at).unwrap();
        for less in [0, 1, value / 2] {
            if less < value {
                let mut bytes = snapshot.to_vec();
                bytes[at..at + 8].copy_from_slice(&less.to_le_bytes());
                repair_crc(&mut bytes);
                smaller.push(bytes);
            }
        }
    }
    smaller
}

/// Payloads and what follows the last whole frame.
fn part_log(log: &[u8]) -> (Vec<Vec<u8>>, &[u8]) {
    let mut payloads = Vec::new();
    let mut rest = log;
    while let Some(length) = u32_at(rest, 0) {
        if rest.len() < length + 12 {
            break;
        }
        payloads.push(rest[8..8 + length].to_vec());
        rest = &rest[length + 12..];
    }
    (payloads, rest)
}

pub fn smaller_logs(log: &[u8]) -> Vec<Vec<u8>> {
    let (payloads, rest) = part_log(log);
    let joined = |payloads: &[Vec<u8>], rest: &[u8]| {
        let mut log: Vec<u8> = payloads.iter().flat_map(|payload| framed(payload)).collect();
        log.extend(rest);
        log
    };
    let mut smaller = Vec::new();
    if !rest.is_empty() {
        smaller.push(joined(&payloads, &[]));
    }
    for place in 0..payloads.len() {
        let mut fewer = payloads.clone();
        fewer.remove(place);
        smaller.push(joined(&fewer, rest));
        for payload in &mut fewer[place..] {
            lower_sequence(payload);
        }
        smaller.push(joined(&fewer, rest));
    }
    for place in 0..payloads.len() {
        for payload in smaller_batches(&payloads[place]) {
            let mut other = payloads.clone();
            other[place] = payload;
            smaller.push(joined(&other, rest));
        }
    }
    smaller
}

fn lower_sequence(payload: &mut [u8]) {
    if let Some(sequence) = u64_at(payload, 1) {
        payload[1..9].copy_from_slice(&sequence.saturating_sub(1).to_le_bytes());
    }
}

/// A batch without the first so many bytes of its operations, and a smaller count.
fn smaller_batches(payload: &[u8]) -> Vec<Vec<u8>> {
    if payload.first() != Some(&3) || payload.len() < 13 {
        return Vec::new();
    }
    let count = u32_at(payload, 9).unwrap() as u32;
    let mut smaller = Vec::new();
    for from in 13..payload.len() {
        for to in from + 9..=payload.len() {
            // An operation is a tag and at least an ID; more than some hundred tries are not worth it.
            if to - from > 64 || !matches!(payload[from], 1 | 2) {
                continue;
            }
            let mut other = payload[..from].to_vec();
            other.extend(&payload[to..]);
            other[9..13].copy_from_slice(&count.saturating_sub(1).to_le_bytes());
            smaller.push(other);
        }
    }
    smaller.truncate(300);
    smaller
}
