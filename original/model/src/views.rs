//! Lookup by ID and the three views; a refused view gives the empty part.
use crate::{
    limits::DIMENSIONS,
    rows::{Row, Sources, part, rows_below, rows_lent},
};

pub fn lookup(row_words: &[u64], count: u64, id: u64) -> Result<Option<u64>, u32> {
    if count > rows_lent(row_words.len() as u64, None) {
        return Err(30);
    }
    let rows = rows_below(row_words, count);
    let node = rows.iter().position(|row| row.id == id && !row.deleted);
    Ok(node.map(|node| node as u64))
}

pub fn caption<'a>(
    row_words: &[u64],
    d: u64,
    count: u64,
    node: u64,
    sources: Sources<'a>,
) -> Result<&'a [u8], u32> {
    row_of(row_words, d, count, node)?.caption(d, sources).ok_or(31)
}

pub fn vector<'a>(
    row_words: &[u64],
    d: u64,
    count: u64,
    node: u64,
    sources: Sources<'a>,
) -> Result<&'a [u8], u32> {
    row_of(row_words, d, count, node)?.coordinates(d, sources).ok_or(31)
}

fn row_of(row_words: &[u64], d: u64, count: u64, node: u64) -> Result<Row, u32> {
    if !DIMENSIONS.contains(&d) {
        return Err(6);
    }
    if node >= count || count > rows_lent(row_words.len() as u64, None) {
        return Err(30);
    }
    let at = 2 * node as usize;
    Ok(Row::from_words(row_words[at], row_words[at + 1]))
}

pub fn neighbours<'a>(
    starts: &[u64],
    count: u64,
    node: u64,
    level: u64,
    cache: &'a [u8],
) -> Result<&'a [u8], u32> {
    if node >= count || count > starts.len() as u64 {
        return Err(30);
    }
    let start = starts[node as usize];
    let levels = part(cache, start, 1).ok_or(31u32)?[0];
    if level >= u64::from(levels) {
        return Err(30);
    }
    let mut at = start + 1;
    for _ in 0..level {
        at += 4 + 4 * degree_at(cache, at)?;
    }
    part(cache, at + 4, 4 * degree_at(cache, at)?).ok_or(31)
}

fn degree_at(cache: &[u8], at: u64) -> Result<u64, u32> {
    let bytes = part(cache, at, 4).ok_or(31u32)?;
    Ok(u64::from(u32::from_le_bytes(bytes.try_into().unwrap())))
}
