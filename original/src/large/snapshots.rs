//! 100,000 records, and snapshots at their largest.
use super::{Case, build::*};
use crate::generate::plan::repair_crc;
use model::{
    config::Config,
    request::{self, RECOVER_COMPACT, RECOVER_WRITE},
};

pub const CASES: &[Case] = &[
    Case {
        name: "rows-100000",
        about: "a snapshot of 100,000 records, exactly as many rows lent",
        answer: "accepted d 1",
        build: || read_snapshot([200_000, 100_000], &many(100_000)),
    },
    Case {
        name: "rows-more-than-100000-lent",
        about: "a snapshot of 100,000 records, more rows lent than count",
        answer: "accepted d 1",
        build: || read_snapshot([200_010, 100_005], &many(100_000)),
    },
    Case {
        name: "rows-99999-lent",
        about: "a snapshot of 100,000 records, one row too few",
        answer: "refused snapshot 19",
        build: || read_snapshot([199_999, 100_000], &many(100_000)),
    },
    Case {
        name: "entries-99999-lent",
        about: "a snapshot of 100,000 records, one active entry too few",
        answer: "refused snapshot 19",
        build: || read_snapshot([200_000, 99_999], &many(100_000)),
    },
    Case {
        name: "records-100001",
        about: "a count of 100,001 with bytes for all of them",
        answer: "refused snapshot 9",
        build: || read_snapshot(ALL_ROWS, &many(100_001)),
    },
    Case {
        name: "id-twice-among-100000",
        about: "the last of 100,000 records has the ID of the first",
        answer: "refused snapshot 18",
        build: || {
            let mut snapshot = many(100_000);
            let last = snapshot.len() - 4 - 17;
            snapshot[last..last + 8].fill(0);
            repair_crc(&mut snapshot);
            read_snapshot(ALL_ROWS, &snapshot)
        },
    },
    Case {
        name: "snapshot-longest",
        about: "version 2, 268,435,456 bytes",
        answer: "accepted d 4096",
        build: || read_snapshot(ALL_ROWS, &longest(2, MAX_SNAPSHOT)),
    },
    Case {
        name: "snapshot-too-long",
        about: "version 2, 268,435,457 bytes",
        answer: "refused snapshot 1",
        build: || read_snapshot(ALL_ROWS, &longest(2, MAX_SNAPSHOT + 1)),
    },
    Case {
        name: "version-1-longest",
        about: "version 1, 268,435,456 bytes: accepted, though no writer can write it",
        answer: "accepted d 4096",
        build: || read_snapshot(ALL_ROWS, &longest(1, MAX_SNAPSHOT)),
    },
    Case {
        name: "version-1-longest-written",
        about: "its full snapshot would be 4 bytes longer",
        answer: "refused 34",
        build: || write(RECOVER_WRITE, MAX_SNAPSHOT),
    },
    Case {
        name: "version-1-longest-compacted",
        about: "nor can it be compacted",
        answer: "refused 34",
        build: || write(RECOVER_COMPACT, MAX_SNAPSHOT),
    },
    Case {
        name: "version-1-one-too-long-to-write",
        about: "version 1, 268,435,453 bytes",
        answer: "refused 34",
        build: || write(RECOVER_WRITE, MAX_SNAPSHOT - 3),
    },
    Case {
        name: "version-1-just-written",
        about: "version 1, 268,435,452 bytes: the snapshot written has 268,435,456",
        answer: "written 268435456",
        build: || write(RECOVER_WRITE, MAX_SNAPSHOT - 4),
    },
];

/// All live, of exactly this length.
pub fn longest(version: u32, length: u64) -> Vec<u8> {
    let around = if version == 1 { 52 } else { 56 };
    let config = Config { metric: 0, ..LARGEST };
    snapshot(version, config, 100_000, captions_for(length, around).into_iter())
}

fn write(call: u8, length: u64) -> Vec<u8> {
    let [row_words, entries] = ALL_ROWS;
    request::body(call, &[row_words, entries, MAX_SNAPSHOT + 10, 0xA5, LIVE], &[&longest(1, length), &[]])
}
