// Times the proved recovery beside the original's `inspect`, in one run, and holds the answer, the records and the active nodes to
// the original's.
//
// The original recovers from files alone, so it has them in memory, in /dev/shm; ours has two slices. What the bare files cost, in
// pieces of the original's sizes, is timed beside them, and the speed is told with it and without it. There is no cache.
include!("../target/bench/vecnook.rs");
#[allow(dead_code)]
mod beside;
mod table;

use beside::{
    Dice, Folder, MAX_RECORDS, PIECE, hold_records, mixed_caption, snapshot, stack_of, tell, tell_heads, time, turns,
};
use std::hint::black_box;
use storage::{Operation, Recovered, encode_batch, encode_frame};

#[repr(C)]
#[derive(Default, Debug, PartialEq)]
struct Told {
    refused: u64,
    sequence: u64,
    crc: u64,
    records: u64,
    active: u64,
    replayed: u64,
    skipped: u64,
    keep: u64,
    tail: u64,
    size: u64,
}

// A result of this size goes through a pointer that is passed first (tools/native).
unsafe extern "C" {
    fn measure_recover(
        told: *mut Told,
        snapshot: *const u8,
        snapshot_len: usize,
        log: *const u8,
        log_len: usize,
        rows: *mut u64,
        rows_len: usize,
        active: *mut u32,
        active_len: usize,
    ) -> *mut Told;
}

const D: usize = 16;
// the original's buffer for a log
const LOG_PIECE: usize = 8 * 1024;
const BATCH: usize = 100;
// 1 over what `tree` mixes IDs by, modulo 2^64
const UNMIXER: u64 = 0xf1de_83e1_9937_733d;

struct Case {
    name: &'static str,
    snapshot: Vec<u8>,
    log: Vec<u8>,
    wanted: f64,
}

fn rising(n: usize) -> Vec<u64> {
    (0..n as u64).map(|i| 3 * i + 1).collect()
}

fn random(n: usize) -> Vec<u64> {
    let mut dice = Dice(0x2545_f491_4f6c_dd1d);
    (0..n).map(|_| dice.roll()).collect()
}

fn falling(n: usize) -> Vec<u64> {
    rising(n).into_iter().rev().collect()
}

// IDs that share the first 47 of their mixed bits, so that the tree is one branch of 47 nodes and a tree of 17 levels below it.
fn deep(n: usize) -> Vec<u64> {
    let prefix = 0x5555_5555_5555_u64 << 17;
    shuffled((0..n as u64).map(|i| (prefix + i).wrapping_mul(UNMIXER)).collect())
}

fn shuffled(mut ids: Vec<u64>) -> Vec<u64> {
    let mut dice = Dice(0x9e37_79b9_7f4a_7c15);
    for i in (1..ids.len()).rev() {
        ids.swap(i, (dice.roll() % (i as u64 + 1)) as usize);
    }
    ids
}

fn empty() -> Vec<u8> {
    snapshot(D, 0, &mut Dice(1), &[])
}

fn vectors(n: usize) -> Vec<[f32; D]> {
    let mut dice = Dice(88172645463325252);
    (0..n).map(|_| std::array::from_fn(|_| dice.coordinate())).collect()
}

// A frame for each put.
fn puts(ids: &[u64]) -> Vec<u8> {
    let frame = |(i, (id, vector)): (usize, (&u64, [f32; D]))| {
        let put = Operation::Put { id: *id, vector: &vector, metadata: &mixed_caption(i) };
        encode_frame(i as u64 + 1, put)
    };
    ids.iter().zip(vectors(ids.len())).enumerate().flat_map(frame).collect()
}

fn batches(ids: &[u64]) -> Vec<u8> {
    let vectors = vectors(ids.len());
    let captions: Vec<String> = (0..ids.len()).map(mixed_caption).collect();
    let put = |i: usize| Mutation::Put { id: ids[i], vector: &vectors[i], metadata: &captions[i] };
    let batch = |k: usize| encode_batch(k as u64 + 1, &(k * BATCH..(k + 1) * BATCH).map(put).collect::<Vec<_>>());
    (0..ids.len() / BATCH).flat_map(batch).collect()
}

fn puts_and_deletes(ids: &[u64]) -> Vec<u8> {
    let mut log = puts(ids);
    for (i, id) in shuffled(ids.to_vec()).into_iter().enumerate() {
        log.extend(encode_frame((ids.len() + i) as u64 + 1, Operation::Delete { id }));
    }
    log
}

fn cases(n: usize) -> Vec<Case> {
    let of = |name, snapshot, log, wanted| Case { name, snapshot, log, wanted };
    let all = |ids: &[u64]| snapshot(D, n as u64, &mut Dice(88172645463325252), ids);
    vec![
        of("a snapshot, no log", all(&rising(n)), vec![], 8.0),
        of("single puts, rising IDs", empty(), puts(&rising(n)), 5.0),
        of("single puts, random IDs", empty(), puts(&random(n)), 3.0),
        of("puts in batches of 100, random IDs", empty(), batches(&random(n)), 3.0),
        of("half puts, half their deletes, random IDs", empty(), puts_and_deletes(&random(n / 2)), 3.0),
        of("single puts, all skipped, rising IDs", all(&rising(n)), puts(&rising(n)), 5.0),
        of("single puts, IDs that make the tree 64 deep", empty(), puts(&deep(n)), 1.0),
        of("single puts, falling IDs", empty(), puts(&falling(n)), 1.0),
    ]
}

// What a host lends. Nothing of it is cleared between rounds.
struct Lent {
    rows: Vec<u64>,
    active: Vec<u32>,
    told: Told,
}

impl Lent {
    // Not zero: memory that was never written would be made on the way.
    fn new() -> Self {
        Self { rows: vec![1; 2 * MAX_RECORDS], active: vec![1; MAX_RECORDS], told: Told::default() }
    }
}

fn recover(case: &Case, lent: &mut Lent) {
    let Case { snapshot, log, .. } = case;
    let Lent { rows, active, told } = lent;
    unsafe {
        measure_recover(
            told,
            snapshot.as_ptr(),
            snapshot.len(),
            log.as_ptr(),
            log.len(),
            rows.as_mut_ptr(),
            rows.len(),
            active.as_mut_ptr(),
            active.len(),
        )
    };
    assert!(told.refused == 0, "refused {}", told.refused);
}

// Everything that a recovery gives but the settings.
fn hold(case: &Case, theirs: &Recovered, lent: &Lent) {
    let Case { snapshot, log, .. } = case;
    let (active, size) = hold_records(D, [snapshot, log], &theirs.records, &lent.rows, &lent.active);
    let told = Told {
        refused: 0,
        sequence: theirs.sequence,
        crc: u32::from_le_bytes(snapshot[snapshot.len() - 4..].try_into().unwrap()) as u64,
        records: theirs.records.len() as u64,
        active,
        replayed: theirs.replayed as u64,
        skipped: theirs.skipped as u64,
        keep: log.len() as u64 - theirs.truncated_bytes,
        tail: theirs.truncated_bytes,
        size,
    };
    assert_eq!(lent.told, told);
}

fn compare(n: usize, case: &Case, rounds: usize) {
    let folder = Folder::new("recovery");
    folder.write("snapshot.bin", &case.snapshot);
    folder.write("wal.bin", &case.log);
    let mut lent = Lent::new();
    recover(case, &mut lent);
    hold(case, &folder.inspect(), &lent);
    let Told { records, active, replayed, skipped, .. } = lent.told;
    println!(
        "{}: {records} records, {active} active, {replayed} frames replayed, {skipped} skipped, {} and {} bytes; all alike",
        case.name,
        case.snapshot.len(),
        case.log.len()
    );
    let (mut piece, mut log_piece) = (vec![0; PIECE], vec![0; LOG_PIECE]);
    let times = turns(
        rounds,
        [
            &mut || time(|| black_box(&folder).inspect()),
            &mut || {
                time(|| {
                    black_box(&folder).read("snapshot.bin", &mut piece);
                    black_box(&folder).read("wal.bin", &mut log_piece)
                })
            },
            &mut || time(|| recover(black_box(case), &mut lent)),
        ],
    );
    tell(&format!("recovery, {n} operations: {}", case.name), "", &times, case.wanted);
}

fn main() {
    tell_heads();
    for (n, rounds) in [(10_000, 31), (100_000, 15)] {
        println!("{n} operations, d {D}, {rounds} rounds");
        cases(n).iter().for_each(|case| compare(n, case, rounds));
    }
    for case in cases(MAX_RECORDS) {
        let mut lent = Lent::new();
        println!("{}: stack {} bytes", case.name, stack_of(&mut || recover(&case, &mut lent)));
    }
}
