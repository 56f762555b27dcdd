//! The snapshot writer, full or compacted; a refusal changes no byte.
use crate::{
    config::Config,
    crc::crc32,
    limits::{MAX_CAPTION, SNAPSHOT_BYTES, SNAPSHOT_FRAME},
    rows::{Row, Sources, rows_below, rows_lent},
    snapshot::MAGIC,
};

pub struct State<'a> {
    pub config: Config,
    pub sequence: u64,
    pub count: u64,
    pub row_words: &'a [u64],
    pub sources: Sources<'a>,
}

pub fn write_snapshot(state: &State, compacted: bool, output: &mut [u8]) -> Result<u64, u32> {
    let written = written_rows(state, compacted)?;
    let d = state.config.d;
    let length = SNAPSHOT_FRAME + written.iter().map(|row| row.size(d)).sum::<u64>();
    if length > *SNAPSHOT_BYTES.end() {
        return Err(34);
    }
    if length > output.len() as u64 {
        return Err(32);
    }
    let bytes = snapshot_bytes(state, &written);
    output[..bytes.len()].copy_from_slice(&bytes);
    Ok(length)
}

/// 6, 7, 8, 30, 31, then the rows to be written, in node order.
pub fn written_rows(state: &State, compacted: bool) -> Result<Vec<Row>, u32> {
    state.config.validate()?;
    if state.count > rows_lent(state.row_words.len() as u64, None) {
        return Err(30);
    }
    let rows = rows_below(state.row_words, state.count);
    if rows.iter().any(|row| !row_fits(row, state.config.d, state.sources)) {
        return Err(31);
    }
    Ok(rows.into_iter().filter(|row| !compacted || !row.deleted).collect())
}

/// Refusal 31's three tests.
fn row_fits(row: &Row, d: u64, sources: Sources) -> bool {
    let end = row.offset + 4 * d + 4 + row.caption_length;
    end <= row.source(sources).len() as u64
        && !(row.deleted && row.caption_length > 0)
        && row.caption_length <= MAX_CAPTION
}

fn snapshot_bytes(state: &State, written: &[Row]) -> Vec<u8> {
    let config = state.config;
    let mut bytes = MAGIC.to_vec();
    for number in [2, config.d, config.m, config.ef, config.metric] {
        bytes.extend((number as u32).to_le_bytes());
    }
    for number in [config.seed, state.sequence, written.len() as u64] {
        bytes.extend(number.to_le_bytes());
    }
    for row in written {
        bytes.extend(row.id.to_le_bytes());
        bytes.push(u8::from(row.deleted));
        bytes.extend(row.coordinates(config.d, state.sources).unwrap());
        bytes.extend((row.caption_length as u32).to_le_bytes());
        bytes.extend(row.caption(config.d, state.sources).unwrap());
    }
    bytes.extend(crc32(&bytes).to_le_bytes());
    bytes
}
