//! 20, 28 by count and by size, payloads of 8 MiB, logs that make 100,000 rows.
use super::{Case, build::*};
use crate::generate::plan::repair_log;
use model::{
    config::Config,
    encode::operation_word,
    limits::MAX_LOG,
    request::{self, ENCODE_BATCH, bytes_of_words64},
};

pub const CASES: &[Case] = &[
    Case {
        name: "log-too-long",
        about: "1,073,741,825 bytes of log beside an empty snapshot: 20 comes before everything",
        answer: "refused log 20 at 0",
        build: || recover(ALL_ROWS, &[], &vec![0; MAX_LOG as usize + 1]),
    },
    Case {
        name: "log-longest",
        about: "1,073,741,824 bytes of log: 127 batches of 8 MiB, the rest a tail",
        answer: "accepted d 1",
        build: || recover(ALL_ROWS, &many(0), &longest_log()),
    },
    Case {
        name: "count-28",
        about: "a put beside 100,000 records",
        answer: "refused log 28 at 0",
        build: || recover(ALL_ROWS, &many(100_000), &put(1, 1, 7, 0)),
    },
    Case {
        name: "count-28-before-19",
        about: "a put beside 100,000 records, exactly 100,000 rows lent",
        answer: "refused log 28 at 0",
        build: || recover([200_000, 100_000], &many(100_000), &put(1, 1, 7, 0)),
    },
    Case {
        name: "count-28-second-put",
        about: "two puts beside 99,999 records",
        answer: "refused log 28 at 37",
        build: || recover(ALL_ROWS, &many(99_999), &[put(1, 1, 7, 0), put(2, 1, 7, 0)].concat()),
    },
    Case {
        name: "count-19-before-28",
        about: "two puts beside 99,999 records, 99,999 rows lent",
        answer: "refused log 19 at 0",
        build: || recover([199_998, 100_000], &many(99_999), &[put(1, 1, 7, 0), put(2, 1, 7, 0)].concat()),
    },
    Case {
        name: "count-100000-by-log",
        about: "a put beside 99,999 records",
        answer: "accepted d 1",
        build: || recover(ALL_ROWS, &many(99_999), &put(1, 1, 7, 3)),
    },
    Case {
        name: "log-of-100000-puts",
        about: "100 batches of 1,000 puts, then one more put",
        answer: "refused log 28",
        build: || recover(ALL_ROWS, &many(0), &many_puts(100, true)),
    },
    Case {
        name: "log-of-99000-puts-and-deletes",
        about: "99 batches of 1,000 puts, then a delete of each second ID",
        answer: "accepted d 1",
        build: || recover(ALL_ROWS, &many(0), &[many_puts(99, false), many_deletes(100)].concat()),
    },
    Case {
        name: "size-28-not-yet",
        about: "a put that fills 268,435,456 bytes exactly",
        answer: "accepted d 4096",
        build: || near_limit(8_188, 0),
    },
    Case {
        name: "size-28",
        about: "a put that passes them by one byte",
        answer: "refused log 28 at 0",
        build: || near_limit(8_188, 1),
    },
    Case {
        name: "size-28-freed-caption",
        about: "one byte too many, but the put frees its old node's caption",
        answer: "accepted d 4096",
        build: || near_limit(5, 1),
    },
    Case {
        name: "payload-8388608",
        about: "a batch with a payload of 8,388,608 bytes",
        answer: "accepted d 1",
        build: || recover(ALL_ROWS, &many(0), &batch(1, 0, &batch_captions(MAX_PAYLOAD))),
    },
    Case {
        name: "payload-8388609",
        about: "one byte more",
        answer: "refused log 22 at 0",
        build: || recover(ALL_ROWS, &many(0), &batch(1, 0, &batch_captions(MAX_PAYLOAD + 1))),
    },
    Case {
        name: "payload-8388608-cut",
        about: "its last byte missing: a tail",
        answer: "accepted d 1",
        build: || {
            let mut log = batch(1, 0, &batch_captions(MAX_PAYLOAD));
            log.pop();
            recover(ALL_ROWS, &many(0), &log)
        },
    },
    Case {
        name: "payload-8388608-bad-caption",
        about: "its very last character is not UTF-8",
        answer: "refused log 15 at 0",
        build: || {
            let mut log = batch(1, 0, &batch_captions(MAX_PAYLOAD));
            let last = log.len() - 5;
            log[last] = 0xC3;
            repair_log(&mut log);
            recover(ALL_ROWS, &many(0), &log)
        },
    },
    Case {
        name: "encode-8388608",
        about: "the batch encoder writes a payload of 8,388,608 bytes",
        answer: "encoded 8388620",
        build: || encode(MAX_PAYLOAD, MAX_PAYLOAD + 12),
    },
    Case {
        name: "encode-8388608-short",
        about: "with room for one byte less",
        answer: "refused 32",
        build: || encode(MAX_PAYLOAD, MAX_PAYLOAD + 11),
    },
    Case {
        name: "encode-8388609",
        about: "one byte more of payload",
        answer: "refused 22",
        build: || encode(MAX_PAYLOAD + 1, MAX_PAYLOAD + 100),
    },
];

fn longest_log() -> Vec<u8> {
    let captions = batch_captions(MAX_PAYLOAD);
    let mut log = Vec::with_capacity(MAX_LOG as usize + 8_388_620);
    let mut sequence = 1;
    while (log.len() as u64) < MAX_LOG {
        log.extend(batch(sequence, 0, &captions));
        sequence += 1;
    }
    log.truncate(MAX_LOG as usize);
    log
}

fn many_puts(batches: u64, one_more: bool) -> Vec<u8> {
    // IDs in no order, so that the active table is built from both ends and the middle.
    let first = |number: u64| number * 37 % batches * 1000;
    let mut log: Vec<u8> =
        (0..batches).flat_map(|number| batch(number + 1, first(number), &[3; 1000])).collect();
    if one_more {
        log.extend(put(batches + 1, 1, 5, 0));
    }
    log
}

/// Single deletes of the IDs 0, 2, 4 and so on below 20,000.
fn many_deletes(first_sequence: u64) -> Vec<u8> {
    (0..10_000).flat_map(|number| delete(first_sequence + number, 2 * number)).collect()
}

fn delete(sequence: u64, id: u64) -> [u8; 29] {
    let mut frame = [0; 29];
    model::encode::delete_frame(sequence, id, &mut frame);
    frame
}

/// 8,188 largest records leave room for a put whose caption has 8,175 bytes.
fn near_limit(id: u64, too_many: u64) -> Vec<u8> {
    let snapshot = snapshot(2, LARGEST, 0, (0..8_188).map(|_| 16_384));
    let left = MAX_SNAPSHOT - snapshot.len() as u64;
    let caption = left - (13 + 4 * LARGEST.d);
    recover(ALL_ROWS, &snapshot, &put(1, LARGEST.d, id, caption + too_many))
}

fn encode(payload: u64, room: u64) -> Vec<u8> {
    let captions = batch_captions(payload);
    let mut words = Vec::new();
    let mut buffer = Vec::new();
    let mut coordinates = Vec::new();
    for (id, length) in captions.iter().enumerate() {
        words.extend([id as u64, operation_word(*length, buffer.len() as u64)]);
        buffer.extend(caption(*length));
        coordinates.extend((id as f32).to_le_bytes());
    }
    let mut numbers = Config::new(1).numbers().to_vec();
    numbers.extend([9, room, 0xA5]);
    request::body(ENCODE_BATCH, &numbers, &[&bytes_of_words64(&words), &coordinates, &buffer])
}
