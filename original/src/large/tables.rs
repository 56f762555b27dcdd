//! Tables handed in: 34 of a few shared bytes, more than 100,000 rows; the listing at its bounds.
use super::{Case, build::*};
use model::{
    config::Config,
    request::{self, *},
    rows::Row,
};

pub const CASES: &[Case] = &[
    Case {
        name: "table-34",
        about: "8,189 rows that share one largest record: the full snapshot is too large",
        answer: "refused 34",
        build: || shared(WRITE_SNAPSHOT, 8_189, 0),
    },
    Case {
        name: "table-34-compacted",
        about: "the same, compacted, all live",
        answer: "refused 34",
        build: || shared(WRITE_COMPACTED, 8_189, 0),
    },
    Case {
        name: "table-34-not-when-compacted",
        about: "the same with ten deleted rows, compacted: short output only",
        answer: "refused 32",
        build: || shared(WRITE_COMPACTED, 8_189, 10),
    },
    Case {
        name: "table-32",
        about: "8,188 rows: not too large, but the output is short",
        answer: "refused 32",
        build: || shared(WRITE_SNAPSHOT, 8_188, 0),
    },
    Case {
        name: "write-100001",
        about: "100,001 rows handed in: only 100,000 of them are lent",
        answer: "refused 30",
        build: || rows(WRITE_SNAPSHOT, 100_001),
    },
    Case {
        name: "write-100000",
        about: "100,000 rows written",
        answer: "written 1700056",
        build: || rows(WRITE_SNAPSHOT, 100_000),
    },
    Case {
        name: "lookup-100001",
        about: "a count of 100,001",
        answer: "refused 30",
        build: || request::body(LOOKUP, &[100_001, 5], &[&bytes_of_words64(&row_words(100_001))]),
    },
    Case {
        name: "lookup-last-of-100000",
        about: "the last of 100,000 rows",
        answer: "node 99999",
        build: || request::body(LOOKUP, &[100_000, 99_999], &[&bytes_of_words64(&row_words(100_000))]),
    },
    Case {
        name: "listing-65536",
        about: "a snapshot of exactly 65,536 bytes",
        answer: "listing ",
        build: || request::body(LISTING, &[], &[&listed(65_536), &[]]),
    },
    Case {
        name: "listing-65537",
        about: "one byte more: refused file 35",
        answer: "listing 16:726566757365642066696c652033350a",
        build: || request::body(LISTING, &[], &[&listed(65_537), &[]]),
    },
    Case {
        name: "listing-log-65537",
        about: "a log of 65,537 bytes beside a snapshot that is none: 35 comes first",
        answer: "listing 16:726566757365642066696c652033350a",
        build: || request::body(LISTING, &[], &[&[], &[0; 65_537]]),
    },
    Case {
        name: "listing-log-19",
        about: "3,800 records and 400 puts: more than 4,096 rows",
        answer: "listing 24:72656675736564206c6f67203139",
        build: || request::body(LISTING, &[], &[&many(3_800), &puts(400)]),
    },
    Case {
        name: "crc-8-mib",
        about: "CRC of 8 MiB",
        answer: "crc ",
        build: || request::body(CRC, &[], &[&caption(8 << 20)]),
    },
    Case {
        name: "utf8-8-mib",
        about: "UTF-8 of 8 MiB of mixed characters",
        answer: "utf8 yes",
        build: || request::body(UTF8, &[], &["aé€😀".repeat(838_860).as_bytes()]),
    },
];

fn shared(call: u8, count: u64, deleted: u64) -> Vec<u8> {
    let snapshot = snapshot(2, LARGEST, 0, [16_384].into_iter());
    let row = |node: u64| Row {
        id: node,
        deleted: node < deleted,
        from_log: false,
        caption_length: if node < deleted { 0 } else { 16_384 },
        offset: 61,
    };
    let words: Vec<u64> = (0..count).flat_map(|node| row(node).words()).collect();
    let mut numbers = LARGEST.numbers().to_vec();
    numbers.extend([1, count, 100, 0xA5]);
    request::body(call, &numbers, &[&bytes_of_words64(&words), &snapshot, &[]])
}

fn row_words(count: u64) -> Vec<u64> {
    let row = |node: u64| Row {
        id: node,
        deleted: false,
        from_log: false,
        caption_length: 0,
        offset: 52 + 17 * node + 9,
    };
    (0..count).flat_map(|node| row(node).words()).collect()
}

fn rows(call: u8, count: u64) -> Vec<u8> {
    let mut numbers = Config::new(1).numbers().to_vec();
    numbers.extend([1, count, 1_700_060, 0xA5]);
    request::body(call, &numbers, &[&bytes_of_words64(&row_words(count)), &many(count), &[]])
}

/// A snapshot of d 1 of exactly this length: the last caption fills it.
fn listed(length: u64) -> Vec<u8> {
    let captions: Vec<u64> = [vec![0; 2_900], vec![length - 56 - 2_901 * 17]].concat();
    snapshot(2, Config::new(1), 0, captions.into_iter())
}

fn puts(count: u64) -> Vec<u8> {
    (1..=count).flat_map(|sequence| put(sequence, 1, 10_000 + sequence, 0)).collect()
}
