//! Good pairs of every shape.
use super::{
    plan::{FramePlan, OperationPlan, PairPlan, RecordPlan, SnapshotPlan},
    prng::Prng,
    values,
};
use model::config::Config;
use std::collections::BTreeSet;

pub fn pair(prng: &mut Prng) -> PairPlan {
    let frames = frame_count(prng);
    let snapshot = snapshot(prng, frames);
    let frames = log(prng, &snapshot, frames);
    let tail = if prng.permille(300) { tail(prng) } else { Vec::new() };
    PairPlan { snapshot, frames, tail }
}

fn frame_count(prng: &mut Prng) -> u64 {
    match prng.below(10) {
        0 => 0,
        1 => 1,
        2 => prng.between(6, 12),
        _ => prng.between(2, 5),
    }
}

fn snapshot(prng: &mut Prng, frames: u64) -> SnapshotPlan {
    let mut config = values::config(prng);
    let version = if prng.permille(300) { 1 } else { 2 };
    if version == 1 {
        config.metric = 0;
    }
    let records = records(prng, &config);
    let mut sequence = match prng.below(10) {
        0 => 0,
        1 => 1,
        2 => u64::MAX - prng.below(frames + 2),
        3 => (1 << 32) - 1 + prng.below(3),
        _ => prng.between(1, frames + 2),
    };
    if version == 1 {
        sequence = sequence.max(records.len() as u64);
    }
    SnapshotPlan { version, config, sequence, records, cut: 0 }
}

fn records(prng: &mut Prng, config: &Config) -> Vec<RecordPlan> {
    let count = match prng.below(40) {
        0 => prng.between(7, 30),
        1..8 => 0,
        _ => prng.between(1, 4),
    };
    let mut live = BTreeSet::new();
    let mut records = Vec::new();
    for _ in 0..count {
        let id = values::id(prng);
        let is_deleted = prng.permille(300) || !live.insert(id);
        records.push(RecordPlan {
            id,
            flag: u8::from(is_deleted),
            coordinates: values::coordinates(prng, config),
            caption: values::caption(prng),
        });
    }
    records
}

/// Frames that begin before, inside or right after the snapshot's sequence.
fn log(prng: &mut Prng, snapshot: &SnapshotPlan, count: u64) -> Vec<FramePlan> {
    if count == 0 {
        return Vec::new();
    }
    let sequence = snapshot.sequence;
    let most_skipped = sequence.min(count);
    let skipped = match prng.below(10) {
        0 => 0,
        1 => most_skipped,
        2 => sequence.min(count + prng.below(4)),
        _ => most_skipped.min(prng.between(1, (count - 1).max(1))),
    };
    let first = sequence - skipped;
    let mut live: BTreeSet<u64> =
        snapshot.records.iter().filter(|record| record.flag == 0).map(|record| record.id).collect();
    let mut frames = Vec::new();
    for number in 1..=count {
        let Some(frame_sequence) = first.checked_add(number) else { break };
        let is_replayed = frame_sequence > sequence;
        let frame = frame(prng, &snapshot.config, frame_sequence, is_replayed.then_some(&live));
        if is_replayed {
            follow(&mut live, &frame);
        }
        frames.push(frame);
    }
    frames
}

/// `live` is none for a frame that will be skipped: there any ID can be deleted.
fn frame(prng: &mut Prng, config: &Config, sequence: u64, live: Option<&BTreeSet<u64>>) -> FramePlan {
    if prng.permille(350) {
        let count = if prng.permille(20) { prng.between(5, 20) } else { prng.between(1, 4) };
        let operations = (0..count).map(|_| batch_operation(prng, config)).collect();
        return FramePlan { sequence, is_batch: true, operations };
    }
    let deletable: Vec<u64> = match live {
        Some(live) => live.iter().copied().collect(),
        None => vec![values::id(prng)],
    };
    let operation = if prng.permille(350) && !deletable.is_empty() {
        OperationPlan::Delete { id: prng.pick(&deletable) }
    } else {
        put(prng, config)
    };
    FramePlan { sequence, is_batch: false, operations: vec![operation] }
}

fn batch_operation(prng: &mut Prng, config: &Config) -> OperationPlan {
    if prng.permille(400) { OperationPlan::Delete { id: values::id(prng) } } else { put(prng, config) }
}

pub fn put(prng: &mut Prng, config: &Config) -> OperationPlan {
    OperationPlan::Put {
        id: values::id(prng),
        coordinates: values::coordinates(prng, config),
        caption: values::caption(prng),
    }
}

fn follow(live: &mut BTreeSet<u64>, frame: &FramePlan) {
    for operation in &frame.operations {
        match operation {
            OperationPlan::Put { id, .. } => live.insert(*id),
            OperationPlan::Delete { id } => live.remove(id),
        };
    }
}

/// Bytes after the last frame that recovery takes for a tail.
fn tail(prng: &mut Prng) -> Vec<u8> {
    if prng.permille(500) {
        let length = prng.between(1, 7) as usize;
        return prng.bytes(length);
    }
    // The head of a frame whose payload never came whole.
    let payload = prng.between(17, 60) as usize;
    let mut frame = model::encode::framed(&prng.bytes(payload));
    frame.truncate(prng.between(8, frame.len() as u64 - 1) as usize);
    frame
}
