//! Record rows, their packed words, and how many rows are lent.
use crate::limits::{MAX_RECORDS, RECORD_FRAME};

/// A record as its row tells it: where its bytes are, never the bytes.
#[derive(Clone, Copy, Debug, PartialEq, Eq)]
pub struct Row {
    pub id: u64,
    pub deleted: bool,
    pub from_log: bool,
    pub caption_length: u64,
    pub offset: u64,
}

/// The snapshot and the log that rows point into.
#[derive(Clone, Copy)]
pub struct Sources<'a> {
    pub snapshot: &'a [u8],
    pub log: &'a [u8],
}

impl Row {
    /// Most significant first: deleted 1, source 1, caption length 15, offset 47.
    pub fn words(&self) -> [u64; 2] {
        let packed = u64::from(self.deleted) << 63
            | u64::from(self.from_log) << 62
            | self.caption_length << 47
            | self.offset;
        [self.id, packed]
    }

    pub fn from_words(id: u64, packed: u64) -> Self {
        Self {
            id,
            deleted: packed >> 63 == 1,
            from_log: packed >> 62 & 1 == 1,
            caption_length: packed >> 47 & 0x7FFF,
            offset: packed & 0x7FFF_FFFF_FFFF,
        }
    }

    pub fn source<'a>(&self, sources: Sources<'a>) -> &'a [u8] {
        if self.from_log { sources.log } else { sources.snapshot }
    }

    pub fn coordinates<'a>(&self, d: u64, sources: Sources<'a>) -> Option<&'a [u8]> {
        part(self.source(sources), self.offset, 4 * d)
    }

    /// The caption begins 4 bytes after the last coordinate: its length stands between.
    pub fn caption<'a>(&self, d: u64, sources: Sources<'a>) -> Option<&'a [u8]> {
        part(self.source(sources), self.offset + 4 * d + 4, self.caption_length)
    }

    pub fn size(&self, d: u64) -> u64 {
        RECORD_FRAME + 4 * d + self.caption_length
    }

    pub fn mark_deleted(&mut self) {
        self.deleted = true;
        self.caption_length = 0;
    }
}

/// `length` bytes from `first` on, if they lie inside the source.
pub fn part(source: &[u8], first: u64, length: u64) -> Option<&[u8]> {
    let end = first.checked_add(length)?;
    if end > source.len() as u64 {
        return None;
    }
    Some(&source[first as usize..end as usize])
}

pub fn rows_lent(row_words: u64, active_entries: Option<u64>) -> u64 {
    (row_words / 2).min(active_entries.unwrap_or(u64::MAX)).min(MAX_RECORDS)
}

/// The rows below the count; the caller has seen that the count is not over the rows lent.
pub fn rows_below(words: &[u64], count: u64) -> Vec<Row> {
    (0..count as usize).map(|node| Row::from_words(words[2 * node], words[2 * node + 1])).collect()
}
