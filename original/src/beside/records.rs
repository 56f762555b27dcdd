//! Records and recovered states, from the original's shape to the model's and back.
use crate::{Record, storage::Recovered, vecnook};
use model::{
    reply::{self, Accepted, LogCounts},
    rows::Sources,
    write::{State, written_rows},
};

/// Snapshot CRC, active, keep and size are not told by the original: the driver derives them.
pub fn original_accepted(state: &Recovered, sources: Sources, with_log: bool) -> Accepted {
    let body = &sources.snapshot[..sources.snapshot.len() - 4];
    Accepted {
        config: vecnook::settings(&state.config),
        snapshot_crc: vecnook::crc32(body),
        sequence: state.sequence,
        active: state.records.iter().filter(|record| !record.deleted).count() as u64,
        log: with_log.then_some(LogCounts {
            replayed: state.replayed as u64,
            skipped: state.skipped as u64,
            keep: sources.log.len() as u64 - state.truncated_bytes,
            tail: state.truncated_bytes,
        }),
        size: state.records.iter().map(Record::encoded_len).sum::<usize>() as u64,
        records: state.records.iter().map(shown).collect(),
    }
}

fn shown(record: &Record) -> reply::Record {
    reply::Record {
        id: record.id,
        deleted: record.deleted,
        coordinates: record.vector.iter().flat_map(|value| value.to_le_bytes()).collect(),
        caption: record.metadata.clone().into_bytes(),
    }
}

/// The rows as the original's records; none if the model refuses them or a caption is not text.
pub fn original_records(state: &State) -> Option<Vec<Record>> {
    // Compacted or not, every row below the count is looked at.
    let rows = written_rows(state, false).ok()?;
    let d = state.config.d;
    rows.iter()
        .map(|row| {
            Some(Record {
                id: row.id,
                vector: vecnook::vector(row.coordinates(d, state.sources)?),
                metadata: String::from_utf8(row.caption(d, state.sources)?.to_vec()).ok()?,
                deleted: row.deleted,
            })
        })
        .collect()
}
