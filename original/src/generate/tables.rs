//! Requests that hand in a table as it is: the writer, lookup and the views of records.
use super::{damage::undamaged, good, pairs::output_length, prng::Prng, values};
use model::{
    config::Config,
    limits::MAX_RECORDS,
    recover::recover,
    request::{self, CAPTION_VIEW, LOOKUP, VECTOR_VIEW, WRITE_COMPACTED, WRITE_SNAPSHOT, bytes_of_words64},
    rows::Row,
};

struct Table {
    config: Config,
    sequence: u64,
    count: u64,
    words: Vec<u64>,
    snapshot: Vec<u8>,
    log: Vec<u8>,
}

/// A recovered table; sometimes longer than its rows, sometimes of odd length.
fn good(prng: &mut Prng) -> Table {
    let pair = undamaged(&good::pair(prng));
    let state = recover(pair.sources(), MAX_RECORDS).ok().expect("a good pair");
    let mut words: Vec<u64> = state.rows.iter().flat_map(|row| row.words()).collect();
    let stray = prng.below(4);
    words.extend((0..stray).map(|_| prng.next()));
    Table {
        config: state.config,
        sequence: state.sequence,
        count: state.rows.len() as u64,
        words,
        snapshot: pair.snapshot,
        log: pair.log,
    }
}

/// A row's fields edited one at a time, to the edge of its source and past it.
fn edit_row(prng: &mut Prng, table: &mut Table) {
    if table.count == 0 {
        return;
    }
    let place = 2 * prng.below(table.count) as usize;
    let mut row = Row::from_words(table.words[place], table.words[place + 1]);
    let length = if row.from_log { table.log.len() } else { table.snapshot.len() } as u64;
    let last = length.saturating_sub(4 * table.config.d + 4 + row.caption_length);
    match prng.below(10) {
        0 => row.offset = last,
        1 => row.offset = last + 1,
        2 => row.offset = (1 << 47) - 1,
        3 => row.offset = prng.below(length + 1),
        4 => row.caption_length = prng.pick(&[0, 1, 16_384, 16_385, 32_767]),
        5 => row.caption_length += length - last.min(length),
        6 => row.from_log = !row.from_log,
        7 => row.deleted = true,
        8 => row.offset = length.saturating_sub(4 * table.config.d),
        _ => row.id = values::id(prng),
    }
    row.caption_length &= 0x7FFF;
    table.words[place..place + 2].copy_from_slice(&row.words());
}

/// Sources that hold captions of more than 16,384 bytes.
fn long_caption(prng: &mut Prng, table: &mut Table) {
    if table.count > 0 {
        let place = 2 * prng.below(table.count) as usize;
        table.log.resize(40_000, b'w');
        let caption_length = prng.pick(&[16_384, 16_385, 20_000]);
        let row = Row { id: 5, deleted: prng.permille(200), from_log: true, caption_length, offset: 100 };
        table.words[place..place + 2].copy_from_slice(&row.words());
    }
}

fn damage(prng: &mut Prng, table: &mut Table) {
    match prng.below(12) {
        0 => table.config.d = prng.pick(&[0, 4097, u64::MAX]),
        1 => table.config.m = prng.pick(&[0, 1, 65]),
        2 => table.config.ef = prng.pick(&[0, table.config.m - 1, 4097]),
        3 => {
            table.count =
                prng.pick(&[table.words.len() as u64 / 2, table.words.len() as u64 / 2 + 1, u64::MAX])
        }
        4 => table.words.truncate(prng.index(table.words.len() + 1)),
        5 => long_caption(prng, table),
        6 => table.log.truncate(prng.index(table.log.len() + 1)),
        7 => table.snapshot.truncate(prng.index(table.snapshot.len() + 1)),
        _ => edit_row(prng, table),
    }
}

pub fn write_request(prng: &mut Prng) -> Vec<u8> {
    let mut table = good(prng);
    if prng.permille(600) {
        damage(prng, &mut table);
    }
    let call = prng.pick(&[WRITE_SNAPSHOT, WRITE_COMPACTED]);
    let rows = table.words.chunks_exact(2).take(table.count.min(8192) as usize);
    let written = rows.map(|words| Row::from_words(words[0], words[1]));
    let kept = written.filter(|row| call == WRITE_SNAPSHOT || !row.deleted);
    let d = table.config.d.min(4096);
    let needed = 56 + kept.map(|row| row.size(d)).sum::<u64>();
    let length = output_length(prng, needed).min(65_536);
    let mut numbers = table.config.numbers().to_vec();
    numbers.extend([table.sequence, table.count, length, prng.below(256)]);
    request::body(call, &numbers, &[&bytes_of_words64(&table.words), &table.snapshot, &table.log])
}

pub fn lookup_request(prng: &mut Prng) -> Vec<u8> {
    let mut table = good(prng);
    if prng.permille(400) {
        damage(prng, &mut table);
    }
    let count = if prng.permille(200) { prng.below(table.count.min(99) + 1) } else { table.count };
    request::body(LOOKUP, &[count, values::id(prng)], &[&bytes_of_words64(&table.words)])
}

pub fn view_request(prng: &mut Prng) -> Vec<u8> {
    let mut table = good(prng);
    if prng.permille(600) {
        damage(prng, &mut table);
    }
    let call = prng.pick(&[CAPTION_VIEW, VECTOR_VIEW]);
    let node = match prng.below(10) {
        0 => prng.pick(&[table.count, u64::MAX]),
        _ => prng.below(table.count.clamp(1, 99)),
    };
    let numbers = [table.config.d, table.count, node];
    request::body(call, &numbers, &[&bytes_of_words64(&table.words), &table.snapshot, &table.log])
}
