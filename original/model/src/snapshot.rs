//! Snapshot reading, versions 1 and 2.
use crate::{
    config::Config,
    coordinates::check_coordinates,
    crc::crc32,
    fields::Fields,
    limits::{MAX_CAPTION, MAX_RECORDS, RECORD_FRAME, SNAPSHOT_BYTES},
    rows::Row,
    utf8::is_utf8,
};
use std::collections::BTreeSet;

pub const MAGIC: &[u8; 8] = b"VECTORS1";

pub struct Snapshot {
    pub config: Config,
    pub crc: u32,
    pub sequence: u64,
    pub rows: Vec<Row>,
}

pub fn read_snapshot(bytes: &[u8], rows_lent: u64) -> Result<Snapshot, u32> {
    if !SNAPSHOT_BYTES.contains(&(bytes.len() as u64)) {
        return Err(1);
    }
    let (body, stored_crc) = bytes.split_at(bytes.len() - 4);
    let mut fields = Fields::new(body);
    if fields.take(8)? != MAGIC {
        return Err(2);
    }
    let version = fields.u32()?;
    if version != 1 && version != 2 {
        return Err(3);
    }
    let config = read_settings(&mut fields, version)?;
    let sequence = fields.u64()?;
    let count = fields.u64()?;
    if count > MAX_RECORDS
        || count > fields.left() / (RECORD_FRAME + 4 * config.d)
        || (version == 1 && count > sequence)
    {
        return Err(9);
    }
    if count > rows_lent {
        return Err(19);
    }
    let mut rows = Vec::new();
    for _ in 0..count {
        rows.push(read_record(&mut fields, &config)?);
    }
    fields.finish()?;
    let crc = crc32(body);
    if crc.to_le_bytes() != stored_crc {
        return Err(17);
    }
    if an_id_is_active_twice(&rows) {
        return Err(18);
    }
    Ok(Snapshot { config, crc, sequence, rows })
}

fn read_settings(fields: &mut Fields, version: u32) -> Result<Config, u32> {
    let d = u64::from(fields.u32()?);
    let m = u64::from(fields.u32()?);
    let ef = u64::from(fields.u32()?);
    let metric = if version == 2 { u64::from(fields.u32()?) } else { 0 };
    if metric > 2 {
        return Err(5);
    }
    let seed = fields.u64()?;
    let config = Config { d, m, ef, seed, metric };
    config.validate()?;
    Ok(config)
}

fn read_record(fields: &mut Fields, config: &Config) -> Result<Row, u32> {
    let id = fields.u64()?;
    let flag = fields.u8()?;
    if flag > 1 {
        return Err(10);
    }
    let offset = fields.at() as u64;
    let coordinates = fields.take(4 * config.d).map_err(|_| 11u32)?;
    let caption_length = read_checked_vector_and_caption(fields, config, coordinates)?;
    let mut row = Row { id, deleted: false, from_log: false, caption_length, offset };
    if flag == 1 {
        row.mark_deleted();
    }
    Ok(row)
}

/// 12, 13, 14, caption truncated, 15: the same for a record and for a put. Gives the caption's length.
pub fn read_checked_vector_and_caption(
    fields: &mut Fields,
    config: &Config,
    coordinates: &[u8],
) -> Result<u64, u32> {
    check_coordinates(config.metric, coordinates)?;
    let length = u64::from(fields.u32()?);
    if length > MAX_CAPTION {
        return Err(14);
    }
    if !is_utf8(fields.take(length)?) {
        return Err(15);
    }
    Ok(length)
}

fn an_id_is_active_twice(rows: &[Row]) -> bool {
    let mut seen = BTreeSet::new();
    rows.iter().any(|row| !row.deleted && !seen.insert(row.id))
}
