//! Lengths and counts around each bound, and document 01's sums at the edges, as requests.
use super::{
    plan::{FramePlan, OperationPlan, RecordPlan, SnapshotPlan, with_crc},
    values::table_fill_of,
};
use model::{
    config::{Config, rng_state},
    crc::crc32,
    encode::{framed, operation_word},
    request::{self, *},
};

pub fn requests() -> Vec<Vec<u8>> {
    [payload_lengths(), batch_counts(), captions(), dimensions(), file_lengths(), sums()].concat()
}

fn config(d: u64) -> Config {
    Config::new(d)
}

fn snapshot(version: u32, config: Config, sequence: u64, records: Vec<RecordPlan>) -> Vec<u8> {
    with_crc(&SnapshotPlan { version, config, sequence, records, cut: 0 }.lay().bytes)
}

fn empty(sequence: u64) -> Vec<u8> {
    snapshot(2, config(1), sequence, Vec::new())
}

fn record(d: u64, caption: usize) -> RecordPlan {
    RecordPlan { id: 7, flag: 0, coordinates: vec![0x3F; 4 * d as usize], caption: vec![b'c'; caption] }
}

fn put(caption: usize) -> OperationPlan {
    OperationPlan::Put { id: 7, coordinates: vec![0x3F; 4], caption: vec![b'p'; caption] }
}

fn frame(sequence: u64, is_batch: bool, operations: Vec<OperationPlan>) -> Vec<u8> {
    framed(&FramePlan { sequence, is_batch, operations }.lay().bytes)
}

fn recover(snapshot: &[u8], log: &[u8]) -> Vec<u8> {
    request::body(RECOVER, &[20, 10, table_fill_of(snapshot.len() + log.len())], &[snapshot, log])
}

/// 16, 17, 8,388,608 and 8,388,609: whole where that is short, else the head alone.
fn payload_lengths() -> Vec<Vec<u8>> {
    let mut requests: Vec<Vec<u8>> =
        (14..20).map(|length| recover(&empty(4), &framed(&vec![0; length]))).collect();
    for length in [0u32, 16, 17, 8_388_607, 8_388_608, 8_388_609, u32::MAX] {
        let length = length.to_le_bytes();
        let mut head = length.to_vec();
        head.extend(crc32(&length).to_le_bytes());
        for room in 0..3 {
            head.extend(vec![0; room]);
            requests.push(recover(&empty(4), &head));
        }
    }
    requests
}

/// 0, 1, 1024, 1025 operations.
fn batch_counts() -> Vec<Vec<u8>> {
    let mut requests = Vec::new();
    for count in [0, 1, 1024, 1025] {
        let deletes = vec![OperationPlan::Delete { id: 7 }; count];
        requests.push(recover(&empty(0), &frame(1, true, deletes)));
        let words: Vec<u64> = (0..count as u64).flat_map(|id| [id, 0]).collect();
        let mut numbers = config(1).numbers().to_vec();
        numbers.extend([1, 9_300, 0xA5]);
        requests.push(request::body(ENCODE_BATCH, &numbers, &[&bytes_of_words64(&words), &[], &[]]));
    }
    requests
}

/// 16,384 and 16,385 bytes of caption, wherever a caption can stand.
fn captions() -> Vec<Vec<u8>> {
    let mut requests = Vec::new();
    for length in [16_384, 16_385] {
        requests.push(recover(&snapshot(2, config(1), 0, vec![record(1, length)]), &[]));
        requests.push(recover(&empty(0), &frame(1, false, vec![put(length)])));
        let words = [7, operation_word(length as u64, 1)];
        let mut numbers = config(1).numbers().to_vec();
        numbers.extend([1, 16_430, 0xA5]);
        let parts: [&[u8]; 3] = [&bytes_of_words64(&words), &1f32.to_le_bytes(), &vec![b'e'; length + 1]];
        requests.push(request::body(ENCODE_FRAME, &numbers, &parts));
    }
    requests
}

fn dimensions() -> Vec<Vec<u8>> {
    vec![recover(&snapshot(2, config(4096), 0, vec![record(4096, 3)]), &[])]
}

/// Snapshots and caches of 48 to 60 bytes; the count field of version 2 ends at byte 52.
fn file_lengths() -> Vec<Vec<u8>> {
    let mut requests = Vec::new();
    for length in 48..=60 {
        for version in [1, 2] {
            let mut body =
                SnapshotPlan { version, config: config(1), sequence: 0, records: Vec::new(), cut: 0 }.lay();
            body.bytes.resize(length - 4, 0);
            requests.push(recover(&with_crc(&body.bytes), &[]));
        }
        requests.push(read_cache(0, u64::MAX, length));
    }
    // A node count over 100,000 is 41 even where file and caller agree.
    requests.push(read_cache(100_000, 0, 52));
    requests.push(read_cache(100_001, 0, 52));
    requests
}

/// A cache without nodes that tells this count, as its caller does.
fn read_cache(count: u64, entry: u64, length: usize) -> Vec<u8> {
    let mut cache = b"VECGRAPH".to_vec();
    cache.extend([1u32, 9].map(u32::to_le_bytes).concat());
    cache.extend([3, count, entry, rng_state(42, count)].map(u64::to_le_bytes).concat());
    cache.resize(length - 4, 0);
    let mut numbers = config(1).numbers().to_vec();
    numbers.extend([9, 3, count, 2, table_fill_of(length)]);
    request::body(READ_CACHE, &numbers, &[&with_crc(&cache)])
}

/// P1 to P12 and the listing, as far as no other list has them.
fn sums() -> Vec<Vec<u8>> {
    let frames = |sequences: &[u64]| -> Vec<u8> {
        sequences.iter().flat_map(|&sequence| frame(sequence, false, vec![put(2)])).collect()
    };
    let mut cosine = config(1);
    cosine.metric = 1;
    let minus_zero = RecordPlan { coordinates: vec![0, 0, 0, 0x80], ..record(1, 0) };
    let listed = [frames(&[1, 2]), vec![1, 2, 3]].concat();
    vec![
        request::body(CRC, &[], &[b""]),
        request::body(CRC, &[], &[b"123456789"]),
        recover(&empty(4), &[9; 7]),
        recover(&empty(4), &[9; 8]),
        recover(&empty(4), &[frames(&[5]), vec![9; 7]].concat()),
        recover(&empty(4), &[frames(&[5]), vec![9; 8]].concat()),
        recover(&empty(4), &frames(&[4, 5])),
        recover(&empty(4), &frames(&[6])),
        recover(&empty(4), &frames(&[3, 5])),
        recover(&empty(u64::MAX), &frames(&[u64::MAX - 1, u64::MAX])),
        recover(&empty(u64::MAX - 1), &frames(&[u64::MAX])),
        recover(&empty(u64::MAX), &frames(&[u64::MAX, 0])),
        recover(&snapshot(1, config(1), 0, vec![record(1, 0)]), &[]),
        recover(&snapshot(2, config(1), 0, vec![record(1, 0)]), &[]),
        recover(&snapshot(2, cosine, 0, vec![minus_zero]), &[]),
        recover(&empty(0), &listed),
        request::body(LISTING, &[], &[&empty(0), &listed]),
    ]
}
