// Times the proved reading and writing of snapshots beside the original's, in one run, and holds the records, the active
// nodes and the bytes to the original's.
//
// The original reads and writes files alone, so it has them in memory, in /dev/shm; ours has a slice. What the bare file costs,
// in pieces of the original's size, is timed beside them, and the speed is told with it and without it.
// What the memory allows is timed in the same turns: the same bytes xored, and copied a record at a time.
// The original reads by `inspect` with an empty log and no cache: records, their sizes, and its map of IDs.
include!("../target/bench/vecnook.rs");
mod beside;
mod table;

use beside::{CAPTION, Dice, Folder, MAX_RECORDS, PIECE, Times, hold_records, stack_of, tell, tell_heads, time, turns};
use std::{
    cell::RefCell,
    fs::{self, File},
    hint::black_box,
    io::Write,
    path::Path,
};
use storage::Recovered;

#[repr(C)]
#[derive(Default, Debug, PartialEq)]
struct Told {
    refused: u64,
    sequence: u64,
    crc: u64,
    records: u64,
    active: u64,
    size: u64,
}

// A result of this size goes through a pointer that is passed first (tools/native).
unsafe extern "C" {
    fn measure_read_snapshot(
        told: *mut Told,
        bytes: *const u8,
        bytes_len: usize,
        rows: *mut u64,
        rows_len: usize,
        active: *mut u32,
        active_len: usize,
    ) -> *mut Told;
    fn measure_write_snapshot(
        d: usize,
        sequence: u64,
        rows: *const u64,
        rows_len: usize,
        count: usize,
        snapshot: *const u8,
        snapshot_len: usize,
        log: *const u8,
        log_len: usize,
        out: *mut u8,
        out_len: usize,
    ) -> u64;
}

const MAX_BYTES: usize = 268_435_456;
const SEQUENCE: u64 = 123_456;

// As many records as there may be.
fn snapshot(d: usize, random: bool) -> Vec<u8> {
    let records = MAX_RECORDS.min((MAX_BYTES - 56) / (13 + 4 * d + CAPTION));
    let mut dice = Dice(88172645463325252);
    let ids: Vec<u64> = (0..records).map(|i| if random { dice.roll() } else { 3 * i as u64 + 1 }).collect();
    beside::snapshot(d, SEQUENCE, &mut dice, &ids)
}

fn write_file(folder: &Path, bytes: &[u8]) {
    let mut file = File::create(folder.join("bare.tmp")).unwrap();
    for piece in bytes.chunks(PIECE) {
        file.write_all(piece).unwrap();
    }
    file.sync_all().unwrap();
    drop(file);
    fs::rename(folder.join("bare.tmp"), folder.join("bare.bin")).unwrap();
}

// What a host lends. Nothing of it is cleared between rounds.
struct Lent {
    rows: Vec<u64>,
    active: Vec<u32>,
    told: Told,
    out: Vec<u8>,
}

impl Lent {
    // Not zero: memory that was never written would be made on the way.
    fn new(length: usize) -> Self {
        let rows = vec![1; 2 * MAX_RECORDS];
        Self { rows, active: vec![1; MAX_RECORDS], told: Told::default(), out: vec![1; length] }
    }
}

fn read_proved(bytes: &[u8], lent: &mut Lent) {
    let Lent { rows, active, told, .. } = lent;
    unsafe {
        measure_read_snapshot(
            told,
            bytes.as_ptr(),
            bytes.len(),
            rows.as_mut_ptr(),
            rows.len(),
            active.as_mut_ptr(),
            active.len(),
        )
    };
    assert!(told.refused == 0, "refused {}", told.refused);
}

fn write_proved(d: usize, bytes: &[u8], lent: &mut Lent) {
    let Lent { rows, told, out, .. } = lent;
    let n = unsafe {
        measure_write_snapshot(
            d,
            told.sequence,
            rows.as_ptr(),
            rows.len(),
            told.records as usize,
            bytes.as_ptr(),
            bytes.len(),
            bytes.as_ptr(),
            0,
            out.as_mut_ptr(),
            out.len(),
        )
    };
    assert!(n as usize == out.len(), "refused {}", n & 255);
}

// What reading and writing cannot do without: each byte looked at once, or moved once.
fn xor(bytes: &[u8]) -> u64 {
    bytes.chunks_exact(8).fold(0, |all, word| all ^ u64::from_le_bytes(word.try_into().unwrap()))
}

fn copy(bytes: &[u8], record: usize, out: &mut [u8]) {
    for (out, record) in out.chunks_mut(record).zip(bytes.chunks(record)) {
        out.copy_from_slice(record);
    }
}

// Everything that a reading gives but the settings.
fn hold_reading(d: usize, bytes: &[u8], theirs: &Recovered, lent: &Lent) {
    let (active, size) = hold_records(d, [bytes, &[]], &theirs.records, &lent.rows, &lent.active);
    let told = Told {
        refused: 0,
        sequence: theirs.sequence,
        crc: u32::from_le_bytes(bytes[bytes.len() - 4..].try_into().unwrap()) as u64,
        records: theirs.records.len() as u64,
        active,
        size,
    };
    assert_eq!(lent.told, told);
}

// Both ways once, and what they leave compared. The original's store is then as it was read.
fn hold(d: usize, bytes: &[u8], folder: &Folder, written: &Folder, lent: &mut Lent) -> VectorIndex {
    let theirs = folder.inspect();
    read_proved(bytes, lent);
    hold_reading(d, bytes, &theirs, lent);
    let index = VectorIndex { config: theirs.config, records: theirs.records };
    storage::write_snapshot(&written.0, &index, SEQUENCE).unwrap_or_else(|error| panic!("{error}"));
    write_proved(d, bytes, lent);
    let file = fs::read(written.0.join("snapshot.bin")).unwrap();
    assert!(file == lent.out && file == bytes, "the bytes written differ");
    index
}

// The original, the bare file, ours, and a bare copy of the records.
fn writing(d: usize, rounds: usize, bytes: &[u8], written: &Folder, index: &VectorIndex, lent: &RefCell<Lent>) -> [Times; 4] {
    let record = 13 + 4 * d + CAPTION;
    turns(
        rounds,
        [
            &mut || time(|| storage::write_snapshot(&written.0, black_box(index), SEQUENCE).is_ok()),
            &mut || time(|| write_file(&written.0, black_box(bytes))),
            &mut || time(|| write_proved(d, black_box(bytes), &mut lent.borrow_mut())),
            &mut || time(|| copy(black_box(bytes), record, &mut lent.borrow_mut().out)),
        ],
    )
}

// The original, the bare file, ours, and a bare xor of the bytes.
fn reading(rounds: usize, bytes: &[u8], folder: &Folder, lent: &RefCell<Lent>) -> [Times; 4] {
    let mut piece = vec![0; PIECE];
    turns(
        rounds,
        [
            &mut || time(|| black_box(folder).inspect()),
            &mut || time(|| black_box(folder).read("snapshot.bin", &mut piece)),
            &mut || time(|| read_proved(black_box(bytes), &mut lent.borrow_mut())),
            &mut || time(|| xor(black_box(bytes))),
        ],
    )
}

fn compare(d: usize, random: bool, rounds: usize) {
    let ids = if random { "random" } else { "rising" };
    let bytes = snapshot(d, random);
    let (folder, written) = (Folder::new("read"), Folder::new("written"));
    folder.write("snapshot.bin", &bytes);
    folder.write("wal.bin", &[]);
    let mut lent = Lent::new(bytes.len());
    let index = hold(d, &bytes, &folder, &written, &mut lent);
    println!("d {d}, {} records, {} bytes, {ids} IDs, {rounds} rounds; all alike", index.records.len(), bytes.len());
    let lent = RefCell::new(lent);
    let [a, b, c, copied] = writing(d, rounds, &bytes, &written, &index, &lent);
    let write = [a, b, c];
    // the original's reading starts without another store in memory
    drop(index);
    let [a, b, c, xored] = reading(rounds, &bytes, &folder, &lent);
    let (wanted_read, wanted_write) = match (d, random) {
        (768, _) => (25.0, 25.0),
        (_, false) => (12.0, 12.0),
        (_, true) => (2.0, 1.0),
    };
    tell(&format!("snapshot read, d {d}, {ids} IDs"), "reading", &[a, b, c], wanted_read);
    tell(&format!("snapshot written, d {d}, {ids} IDs"), "writing", &write, wanted_write);
    print!("  the bytes alone: xored {:.2} {:.2}", xored.best * 1e3, xored.median * 1e3);
    println!(", copied a record at a time {:.2} {:.2}", copied.best * 1e3, copied.median * 1e3);
}

fn tell_memory(d: usize, random: bool) {
    let bytes = snapshot(d, random);
    let mut lent = Lent::new(bytes.len());
    let reading = stack_of(&mut || read_proved(&bytes, &mut lent));
    let writing = stack_of(&mut || write_proved(d, &bytes, &mut lent));
    println!(
        "d {d}, {} IDs: lent {} bytes of rows, {} of active entries, {} to write into; stack: reading {reading}, writing {writing} bytes",
        if random { "random" } else { "rising" },
        8 * lent.rows.len(),
        4 * lent.active.len(),
        lent.out.len(),
    );
}

fn main() {
    tell_heads();
    let stores = [(16, false, 15), (16, true, 15), (768, false, 7), (768, true, 7)];
    for (d, random, rounds) in stores {
        compare(d, random, rounds);
    }
    for (d, random, _) in stores {
        tell_memory(d, random);
    }
}
