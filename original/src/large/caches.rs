//! Caches of 100,000 nodes and at their largest.
use super::{Case, build::LIVE};
use crate::generate::plan::with_crc;
use model::{
    config::{Config, rng_state},
    request::{self, READ_CACHE},
};

const MAX_CACHE: usize = 134_217_728;

pub const CASES: &[Case] = &[
    Case {
        name: "cache-100000",
        about: "100,000 nodes without neighbours",
        answer: "accepted nodes 100000",
        build: || read(100_000, 100_000, &lonely(100_000)),
    },
    Case {
        name: "cache-99999-starts",
        about: "one start entry too few",
        answer: "refused 51",
        build: || read(100_000, 99_999, &lonely(100_000)),
    },
    Case {
        name: "cache-100001",
        about: "100,001 nodes, told alike by file and caller",
        answer: "refused 41",
        build: || read(100_001, 100_001, &lonely(100_001)),
    },
    Case {
        name: "cache-longest",
        about: "134,217,728 bytes: 100,000 nodes of five levels",
        answer: "accepted nodes 100000",
        build: || read(100_000, 100_000, &longest()),
    },
    Case {
        name: "cache-too-long",
        about: "134,217,729 bytes",
        answer: "refused 1",
        build: || {
            let mut cache = longest();
            cache.push(0);
            read(100_000, 100_000, &cache)
        },
    },
];

const CONFIG: Config = Config { d: 1, m: 64, ef: 64, seed: 7, metric: 0 };

fn read(count: u64, starts: u64, cache: &[u8]) -> Vec<u8> {
    let mut numbers = CONFIG.numbers().to_vec();
    numbers.extend([5, 6, count, starts, LIVE]);
    request::body(READ_CACHE, &numbers, &[cache])
}

fn header(count: u64) -> Vec<u8> {
    let mut bytes = b"VECGRAPH".to_vec();
    for number in [1u32, 5] {
        bytes.extend(number.to_le_bytes());
    }
    for number in [6, count, 0, rng_state(CONFIG.seed, count)] {
        bytes.extend(number.to_le_bytes());
    }
    bytes
}

fn lonely(count: u64) -> Vec<u8> {
    let mut bytes = header(count);
    for _ in 0..count {
        bytes.extend([1, 0, 0, 0, 0]);
    }
    with_crc(&bytes)
}

/// Each node has five levels; degrees are chosen so that the file has its largest length exactly.
fn longest() -> Vec<u8> {
    const COUNT: u32 = 100_000;
    const LEVELS: u32 = 5;
    let mut bytes = header(u64::from(COUNT));
    // Bytes for neighbours: what is left besides header, CRC, levels bytes and degrees.
    let around = bytes.len() + 4 + COUNT as usize * (1 + 4 * LEVELS as usize);
    let mut left = (MAX_CACHE - around) / 4;
    for node in 0..COUNT {
        bytes.push(LEVELS as u8);
        // Spread evenly over the nodes to come.
        let mut share = left.div_ceil((COUNT - node) as usize);
        left -= share;
        for level in 0..LEVELS {
            let degree = share.min(if level == 0 { 128 } else { 64 });
            share -= degree;
            bytes.extend((degree as u32).to_le_bytes());
            for step in 1..=degree as u32 {
                bytes.extend(((node + step * 101) % COUNT).to_le_bytes());
            }
        }
        assert_eq!(share, 0);
    }
    let cache = with_crc(&bytes);
    assert_eq!(cache.len(), MAX_CACHE);
    cache
}
