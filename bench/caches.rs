// Times the proved reading of a graph cache beside the original's, in one run, and holds every level's neighbours, the entry
// and the RNG state to the original's.
//
// The original reads a file alone, so it has it in memory, in /dev/shm; ours has a slice. What the bare file costs, in pieces of
// the original's size, is timed beside them, and the speed is told with it and without it.
include!("../target/bench/vecnook.rs");
#[allow(dead_code)]
mod beside;
mod table;

use beside::{Dice, Folder, PIECE, stack_of, tell, tell_heads, time, turns};
use index::GraphState;
use std::{hint::black_box, path::Path};

#[repr(C)]
#[derive(Default, Debug, PartialEq)]
struct Told {
    refused: u64,
    nodes: u64,
    entry: u64,
    rng_state: u64,
}

// A result of this size goes through a pointer that is passed first (tools/native).
unsafe extern "C" {
    fn measure_read_cache(
        told: *mut Told,
        bytes: *const u8,
        bytes_len: usize,
        d: usize,
        m: usize,
        ef: usize,
        seed: u64,
        crc: u32,
        sequence: u64,
        count: usize,
        starts: *mut u64,
        starts_len: usize,
    ) -> *mut Told;
    fn measure_neighbours(
        cache: *const u8,
        cache_len: usize,
        starts: *const u64,
        starts_len: usize,
        count: usize,
        node: u32,
        level: usize,
        out: *mut u8,
        out_len: usize,
    ) -> usize;
}

const SEQUENCE: u64 = 123_456;
const CRC: u32 = 0x1234_5678;

// Every list is full: 2M neighbours at level 0, M above, as far as there are so many other nodes with that level; each node is on
// the next level with one chance in M.
fn cache(count: usize, m: usize) -> Vec<u8> {
    let mut dice = Dice(88172645463325252);
    let mut tops: Vec<Vec<usize>> = vec![(0..count).collect()];
    while tops.len() < 33 && tops.last().unwrap().len() > 1 {
        let next = tops.last().unwrap().iter().copied().filter(|_| dice.roll() % m as u64 == 0).collect::<Vec<_>>();
        if next.is_empty() {
            break;
        }
        tops.push(next);
    }
    let mut levels = vec![0u8; count];
    tops.iter().flatten().for_each(|&node| levels[node] += 1);
    let entry = *tops.last().unwrap().last().unwrap() as u64;
    let rng = 42u64.wrapping_add((count as u64).wrapping_mul(0x9e37_79b9_7f4a_7c15));
    let mut bytes = b"VECGRAPH".to_vec();
    bytes.extend(1u32.to_le_bytes());
    bytes.extend(CRC.to_le_bytes());
    for number in [SEQUENCE, count as u64, entry, rng] {
        bytes.extend(number.to_le_bytes());
    }
    for node in 0..count {
        bytes.push(levels[node]);
        for (level, all) in tops.iter().enumerate().take(levels[node] as usize) {
            let degree = (if level == 0 { 2 * m } else { m }).min(all.len() - 1);
            let mut list: Vec<usize> = Vec::new();
            while list.len() < degree {
                let x = all[(dice.roll() % all.len() as u64) as usize];
                if x != node && !list.contains(&x) {
                    list.push(x);
                }
            }
            bytes.extend((degree as u32).to_le_bytes());
            list.iter().for_each(|&x| bytes.extend((x as u32).to_le_bytes()));
        }
    }
    bytes.extend(storage::crc32(&bytes).to_le_bytes());
    bytes
}

fn read_original(folder: &Path, config: &Config, count: usize) -> GraphState {
    graph::read(folder, config, SEQUENCE, CRC, count).unwrap_or_else(|error| panic!("{error}"))
}

fn read_proved(bytes: &[u8], m: usize, count: usize, starts: &mut [u64]) -> Told {
    let mut told = Told::default();
    unsafe {
        measure_read_cache(
            &mut told,
            bytes.as_ptr(),
            bytes.len(),
            16,
            m,
            200,
            42,
            CRC,
            SEQUENCE,
            count,
            starts.as_mut_ptr(),
            starts.len(),
        )
    };
    assert!(told.refused == 0, "refused {}", told.refused);
    told
}

// Everything that a reading gives, the neighbours by the view.
fn hold_reading(bytes: &[u8], theirs: &GraphState, told: &Told, starts: &[u64]) {
    let entry = theirs.entry.map_or(u64::MAX, |n| n as u64);
    let nodes = theirs.links.len();
    assert_eq!(*told, Told { refused: 0, nodes: nodes as u64, entry, rng_state: theirs.rng_state });
    let mut out = [0u8; 512];
    for (node, layers) in theirs.links.iter().enumerate() {
        assert!(bytes[starts[node] as usize] as usize == layers.len(), "levels of {node}");
        for (level, neighbours) in layers.iter().enumerate() {
            let n = unsafe {
                measure_neighbours(
                    bytes.as_ptr(),
                    bytes.len(),
                    starts.as_ptr(),
                    starts.len(),
                    nodes,
                    node as u32,
                    level,
                    out.as_mut_ptr(),
                    out.len(),
                )
            };
            assert!(out[..n].chunks(4).eq(neighbours.iter().map(|&x| (x as u32).to_le_bytes())), "node {node} level {level}");
        }
    }
    assert!(starts[nodes..].iter().all(|&word| word == 0), "zeros after");
}

fn compare(count: usize, m: usize, rounds: usize) {
    let config = Config::new(16).with_m(m);
    let bytes = cache(count, m);
    let folder = Folder::new("cache");
    folder.write("index.bin", &bytes);
    let mut starts = vec![1u64; count + 8];
    let theirs = read_original(&folder.0, &config, count);
    let told = read_proved(&bytes, m, count, &mut starts);
    hold_reading(&bytes, &theirs, &told, &starts);
    let edges: usize = theirs.links.iter().flatten().map(Vec::len).sum();
    drop(theirs);
    println!("{count} nodes, M {m}, {edges} edges, {} bytes, {rounds} rounds; all alike", bytes.len());
    let mut piece = vec![0; PIECE];
    let reading = turns(
        rounds,
        [
            &mut || time(|| read_original(black_box(&folder.0), &config, count)),
            &mut || time(|| black_box(&folder).read("index.bin", &mut piece)),
            &mut || time(|| read_proved(black_box(&bytes), m, count, &mut starts)),
        ],
    );
    tell(&format!("cache read, {count} nodes, M {m}"), "reading", &reading, 3.0);
}

fn main() {
    tell_heads();
    for (count, m, rounds) in [(10_000, 16, 31), (30_000, 16, 21), (100_000, 16, 15), (100_000, 64, 7)] {
        compare(count, m, rounds);
    }
    let bytes = cache(10_000, 16);
    let mut starts = vec![1u64; 10_000];
    let stack = stack_of(&mut || {
        read_proved(&bytes, 16, 10_000, &mut starts);
    });
    println!("lent: 8 bytes a node; stack: reading {stack} bytes");
}
