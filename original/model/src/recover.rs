//! Recovery without repair: the snapshot, then the log frame by frame.
use crate::{
    config::Config,
    limits::{MAX_LOG, MAX_RECORDS, SNAPSHOT_BYTES, SNAPSHOT_FRAME},
    log::{Frame, Next, Operation, next_frame},
    rows::{Row, Sources},
    snapshot::read_snapshot,
};
use std::collections::BTreeMap;

#[derive(Clone, Copy, Debug, PartialEq, Eq)]
pub enum Refusal {
    Snapshot(u32),
    Log { number: u32, at: u64 },
}

pub struct Recovered {
    pub config: Config,
    pub snapshot_crc: u32,
    pub sequence: u64,
    pub rows: Vec<Row>,
    /// The live node of each ID.
    pub active: BTreeMap<u64, u64>,
    pub size: u64,
    pub replayed: u64,
    pub skipped: u64,
    pub keep: u64,
    pub tail: u64,
}

pub fn recover(sources: Sources, rows_lent: u64) -> Result<Recovered, Refusal> {
    if sources.log.len() as u64 > MAX_LOG {
        return Err(Refusal::Log { number: 20, at: 0 });
    }
    let mut state = start(sources.snapshot, rows_lent).map_err(Refusal::Snapshot)?;
    let snapshot_sequence = state.sequence;
    let mut previous = None;
    loop {
        let at = state.keep;
        let refused = |number| Refusal::Log { number, at };
        let Next::Frame(frame) = next_frame(sources.log, at, &state.config, previous).map_err(refused)?
        else {
            break;
        };
        previous = Some(frame.sequence);
        if frame.sequence <= snapshot_sequence {
            state.skipped += 1;
        } else {
            replay(&mut state, &frame, rows_lent).map_err(refused)?;
            state.replayed += 1;
        }
        state.keep = frame.end;
    }
    state.tail = sources.log.len() as u64 - state.keep;
    Ok(state)
}

/// The state of the snapshot beside an empty log.
pub fn start(snapshot: &[u8], rows_lent: u64) -> Result<Recovered, u32> {
    let snapshot = read_snapshot(snapshot, rows_lent)?;
    let mut active = BTreeMap::new();
    for (node, row) in snapshot.rows.iter().enumerate() {
        if !row.deleted {
            active.insert(row.id, node as u64);
        }
    }
    Ok(Recovered {
        size: snapshot.rows.iter().map(|row| row.size(snapshot.config.d)).sum(),
        config: snapshot.config,
        snapshot_crc: snapshot.crc,
        sequence: snapshot.sequence,
        rows: snapshot.rows,
        active,
        replayed: 0,
        skipped: 0,
        keep: 0,
        tail: 0,
    })
}

fn replay(state: &mut Recovered, frame: &Frame, rows_lent: u64) -> Result<(), u32> {
    if state.sequence.checked_add(1) != Some(frame.sequence) {
        return Err(27);
    }
    for operation in &frame.operations {
        match operation {
            Operation::Put(row) => put(state, *row, rows_lent)?,
            Operation::Delete(id) => {
                if !delete(state, *id) && !frame.is_batch {
                    return Err(29);
                }
            }
        }
    }
    state.sequence = frame.sequence;
    Ok(())
}

fn put(state: &mut Recovered, row: Row, rows_lent: u64) -> Result<(), u32> {
    delete(state, row.id);
    state.size += row.size(state.config.d);
    let node = state.rows.len() as u64;
    if node == MAX_RECORDS || state.size + SNAPSHOT_FRAME > *SNAPSHOT_BYTES.end() {
        return Err(28);
    }
    if node >= rows_lent {
        return Err(19);
    }
    state.active.insert(row.id, node);
    state.rows.push(row);
    Ok(())
}

/// Whether the ID was active.
fn delete(state: &mut Recovered, id: u64) -> bool {
    let Some(node) = state.active.remove(&id) else { return false };
    let row = &mut state.rows[node as usize];
    state.size -= row.caption_length;
    row.mark_deleted();
    true
}
