//! Document 01's sums at the edges (P1 to P12) and its listing, asked of the model.
use crate::{
    answer::answer_listing,
    cache::{Expected, read_cache},
    config::{Config, rng_state},
    coordinates::check_coordinates,
    crc::crc32,
    encode::framed,
    log::{Next, next_frame},
    recover::{Refusal, recover},
    rows::Sources,
    snapshot::read_snapshot,
    utf8::is_utf8,
};

fn snapshot(version: u32, sequence: u64, count: u64, room: usize) -> Vec<u8> {
    let mut bytes = b"VECTORS1".to_vec();
    for number in [version, 1, 16, 200] {
        bytes.extend(number.to_le_bytes());
    }
    if version == 2 {
        bytes.extend(0u32.to_le_bytes());
    }
    for number in [42, sequence, count] {
        bytes.extend(number.to_le_bytes());
    }
    bytes.extend(vec![0; room]);
    bytes.extend(crc32(&bytes).to_le_bytes());
    bytes
}

fn put(sequence: u64, id: u64, caption: &str) -> Vec<u8> {
    let mut payload = vec![1];
    payload.extend(sequence.to_le_bytes());
    payload.extend(id.to_le_bytes());
    payload.extend(1f32.to_le_bytes());
    payload.extend((caption.len() as u32).to_le_bytes());
    payload.extend(caption.bytes());
    framed(&payload)
}

fn recovered(sequence: u64, frames: &[u64]) -> Result<(u64, u64), Refusal> {
    let log: Vec<u8> = frames.iter().flat_map(|&sequence| put(sequence, 7, "")).collect();
    let snapshot = snapshot(2, sequence, 0, 0);
    let state = recover(Sources { snapshot: &snapshot, log: &log }, 10)?;
    Ok((state.skipped, state.replayed))
}

#[test]
fn p1_and_published_crc() {
    assert_eq!(crc32(b""), 0);
    assert_eq!(crc32(b"123456789"), 0xCBF4_3926);
}

#[test]
fn p2_p3_lengths() {
    let number = |length: usize| next_frame(&framed(&vec![0; length]), 0, &Config::new(1), None).err();
    assert_eq!(number(16), Some(22));
    assert_eq!(number(17), Some(24));
    assert_eq!(number(8_388_608), Some(24));
    assert_eq!(number(8_388_609), Some(22));
}

#[test]
fn p4_seven_bytes_are_a_tail() {
    assert!(matches!(next_frame(&[9; 7], 0, &Config::new(1), None), Ok(Next::Tail)));
    assert_eq!(next_frame(&[9; 8], 0, &Config::new(1), None).err(), Some(21));
}

#[test]
fn p5_p6_p7_sequences() {
    assert_eq!(recovered(4, &[4, 5]), Ok((1, 1)));
    assert_eq!(recovered(4, &[6]), Err(Refusal::Log { number: 27, at: 0 }));
    assert_eq!(recovered(4, &[3, 5]), Err(Refusal::Log { number: 24, at: 37 }));
}

#[test]
fn p8_counts() {
    assert_eq!(read_snapshot(&snapshot(1, 0, 1, 17), 9).err(), Some(9));
    assert_eq!(read_snapshot(&snapshot(2, 0, 1, 17), 9).err(), None);
}

#[test]
fn p9_utf8() {
    assert!(is_utf8(b"\xF4\x8F\xBF\xBF"));
    assert!(is_utf8(b""));
    for bad in [&b"\xC0\x80"[..], b"\xED\xA0\x80", b"\xF4\x90\x80\x80"] {
        assert!(!is_utf8(bad));
    }
}

#[test]
fn p10_levels() {
    for levels in [0, 34] {
        let mut bytes = b"VECGRAPH".to_vec();
        bytes.extend([1u32, 0].map(u32::to_le_bytes).concat());
        bytes.extend([0, 1, 0, rng_state(42, 1)].map(u64::to_le_bytes).concat());
        bytes.extend([levels, 0, 0, 0, 0]);
        bytes.extend(crc32(&bytes).to_le_bytes());
        let expected = Expected { config: Config::new(1), snapshot_crc: 0, sequence: 0, count: 1 };
        assert_eq!(read_cache(&expected, &bytes, 1).err(), Some(46));
    }
}

#[test]
fn p11_minus_zero() {
    assert_eq!(check_coordinates(1, &(-0f32).to_le_bytes()), Err(13));
    assert_eq!(check_coordinates(1, &0x8000_0001u32.to_le_bytes()), Ok(()));
}

#[test]
fn p12_and_the_listing() {
    let snapshot = snapshot(2, 0, 0, 0);
    let mut log = put(1, 7, "Hi");
    log.extend(put(2, 7, "Ho"));
    log.extend([1, 2, 3]);
    let sources = Sources { snapshot: &snapshot, log: &log };
    let rows = recover(sources, 9).ok().unwrap().rows;
    assert_eq!(rows[1].words(), [7, 4_611_967_493_404_098_624]);
    let wanted = "seq 2 records 2 active 1 replayed 2 skipped 0 keep 78 tail 3\n0 7 gone\n1 7 live Ho\n";
    assert_eq!(answer_listing(sources), wanted.as_bytes());
}

#[test]
fn rng_wraps() {
    assert_eq!(rng_state(u64::MAX, 1), 0x9e37_79b9_7f4a_7c14);
}
