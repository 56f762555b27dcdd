//! Snapshots and frames of exact lengths.
use crate::generate::plan::with_crc;
use model::{
    config::Config,
    encode::framed,
    request::{self, READ_SNAPSHOT, RECOVER},
};

/// Row words and entries for every row there can be, and a few more.
pub const ALL_ROWS: [u64; 2] = [200_010, 100_005];

/// The lent tables' fill: twice the word is a live row of an ID that the files have.
pub const LIVE: u64 = 5;
/// Coordinates and caption of the largest record.
pub const LARGEST: Config = Config { d: 4096, m: 16, ef: 200, seed: 42, metric: 0 };
pub const LARGEST_RECORD: u64 = 13 + 4 * 4096 + 16_384;
pub const MAX_SNAPSHOT: u64 = 268_435_456;
pub const MAX_PAYLOAD: u64 = 8_388_608;

pub fn caption(length: u64) -> Vec<u8> {
    b"Halde ".iter().copied().cycle().take(length as usize).collect()
}

fn push_vector_and_caption(bytes: &mut Vec<u8>, d: u64, id: u64, caption: &[u8]) {
    for place in 0..d {
        bytes.extend(((id + place) as f32).to_le_bytes());
    }
    bytes.extend((caption.len() as u32).to_le_bytes());
    bytes.extend(caption);
}

/// A snapshot of live records with IDs from 0 on and captions of these lengths.
pub fn snapshot(
    version: u32,
    config: Config,
    sequence: u64,
    captions: impl ExactSizeIterator<Item = u64>,
) -> Vec<u8> {
    let mut bytes = b"VECTORS1".to_vec();
    for number in [version, config.d as u32, config.m as u32, config.ef as u32] {
        bytes.extend(number.to_le_bytes());
    }
    if version == 2 {
        bytes.extend((config.metric as u32).to_le_bytes());
    }
    for number in [config.seed, sequence, captions.len() as u64] {
        bytes.extend(number.to_le_bytes());
    }
    for (id, length) in captions.enumerate() {
        bytes.extend((id as u64).to_le_bytes());
        bytes.push(0);
        push_vector_and_caption(&mut bytes, config.d, id as u64, &caption(length));
    }
    with_crc(&bytes)
}

/// So many records of d 1 without captions.
pub fn many(count: u64) -> Vec<u8> {
    snapshot(2, Config::new(1), 0, (0..count as usize).map(|_| 0))
}

/// Captions that fill a snapshot of largest records up to exactly `length` bytes.
pub fn captions_for(length: u64, around: u64) -> Vec<u64> {
    let records = length - around;
    let whole = records / LARGEST_RECORD;
    let mut rest = records % LARGEST_RECORD;
    let mut captions = vec![16_384; whole as usize];
    // The rest is one more record if it is long enough, else two records share with the last.
    let empty = LARGEST_RECORD - 16_384;
    if rest < empty {
        captions.pop();
        rest += LARGEST_RECORD;
        let first = (rest - 2 * empty).min(16_384);
        captions.push(first);
        rest -= empty + first;
    }
    captions.push(rest - empty);
    captions
}

pub fn put(sequence: u64, d: u64, id: u64, caption_length: u64) -> Vec<u8> {
    let mut payload = vec![1];
    payload.extend(sequence.to_le_bytes());
    payload.extend(id.to_le_bytes());
    push_vector_and_caption(&mut payload, d, id, &caption(caption_length));
    framed(&payload)
}

/// A batch of puts of d 1 with IDs from `first` on and captions of these lengths.
pub fn batch(sequence: u64, first: u64, captions: &[u64]) -> Vec<u8> {
    let mut payload = vec![3];
    payload.extend(sequence.to_le_bytes());
    payload.extend((captions.len() as u32).to_le_bytes());
    for (place, length) in captions.iter().enumerate() {
        let id = first + place as u64;
        payload.push(1);
        payload.extend(id.to_le_bytes());
        push_vector_and_caption(&mut payload, 1, id, &caption(*length));
    }
    framed(&payload)
}

/// Captions of a batch of d 1 whose payload has exactly this length.
pub fn batch_captions(payload: u64) -> Vec<u64> {
    let whole = 18 + 16_384 - 1;
    let rest = payload - 13;
    let mut captions = vec![16_384; (rest / whole) as usize];
    captions.push(rest % whole - 17);
    captions
}

pub fn recover([row_words, entries]: [u64; 2], snapshot: &[u8], log: &[u8]) -> Vec<u8> {
    request::body(RECOVER, &[row_words, entries, LIVE], &[snapshot, log])
}

pub fn read_snapshot([row_words, entries]: [u64; 2], snapshot: &[u8]) -> Vec<u8> {
    request::body(READ_SNAPSHOT, &[row_words, entries, LIVE], &[snapshot])
}
