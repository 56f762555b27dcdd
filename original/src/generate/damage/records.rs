//! Damage to the plan of a snapshot: one thing is wrong with a record, or with what it is counted by.
use crate::generate::{
    plan::{OperationPlan, PairPlan, RecordPlan},
    prng::Prng,
    values,
};

/// A record to be damaged; the plan gets one if it has none.
pub fn some_record<'a>(prng: &mut Prng, plan: &'a mut PairPlan) -> &'a mut RecordPlan {
    let snapshot = &mut plan.snapshot;
    if snapshot.records.is_empty() {
        snapshot.records.push(RecordPlan {
            id: values::id(prng),
            flag: u8::from(prng.permille(300)),
            coordinates: values::coordinates(prng, &snapshot.config),
            caption: values::caption(prng),
        });
        snapshot.sequence = snapshot.sequence.max(1);
    }
    let place = prng.index(snapshot.records.len());
    &mut snapshot.records[place]
}

pub fn record_flag(prng: &mut Prng, plan: &mut PairPlan) {
    some_record(prng, plan).flag = prng.between(2, 255) as u8;
}

pub fn spoil(prng: &mut Prng, coordinates: &mut [u8]) {
    let bits: u32 = prng.pick(&[0x7F80_0000, 0xFF80_0000, 0x7FC0_0000, 0x7F80_0001, 0xFFFF_FFFF]);
    let place = 4 * prng.index(coordinates.len() / 4);
    coordinates[place..place + 4].copy_from_slice(&bits.to_le_bytes());
}

pub fn zeros(prng: &mut Prng, coordinates: &mut [u8]) {
    for coordinate in coordinates.chunks_mut(4) {
        coordinate.copy_from_slice(&prng.pick(&[0u32, 0x8000_0000]).to_le_bytes());
    }
}

pub fn record_not_finite(prng: &mut Prng, plan: &mut PairPlan) {
    let mut coordinates = some_record(prng, plan).coordinates.clone();
    spoil(prng, &mut coordinates);
    some_record(prng, plan).coordinates = coordinates;
}

/// All other vectors get a coordinate that cosine accepts.
pub fn make_cosine(plan: &mut PairPlan) {
    plan.snapshot.version = 2;
    plan.snapshot.config.metric = 1;
    let one = 1f32.to_le_bytes();
    for record in &mut plan.snapshot.records {
        record.coordinates[..4].copy_from_slice(&one);
    }
    for frame in &mut plan.frames {
        for operation in &mut frame.operations {
            if let OperationPlan::Put { coordinates, .. } = operation {
                coordinates[..4].copy_from_slice(&one);
            }
        }
    }
}

pub fn record_cosine_zero(prng: &mut Prng, plan: &mut PairPlan) {
    make_cosine(plan);
    let mut coordinates = some_record(prng, plan).coordinates.clone();
    zeros(prng, &mut coordinates);
    some_record(prng, plan).coordinates = coordinates;
}

pub fn record_long_caption(prng: &mut Prng, plan: &mut PairPlan) {
    let caption = values::long_text(prng, 16_385);
    some_record(prng, plan).caption = caption;
}

pub fn record_bad_text(prng: &mut Prng, plan: &mut PairPlan) {
    let caption = values::bad_text(prng);
    some_record(prng, plan).caption = caption;
}

/// The last vector is cut; a caption before it is long enough for the count to pass.
pub fn record_vector_cut(prng: &mut Prng, plan: &mut PairPlan) {
    let d = plan.snapshot.config.d as usize;
    some_record(prng, plan).caption = vec![b'c'; (4 * d + 13).min(16_384)];
    let mut last = plan.snapshot.records[0].clone();
    last.flag = 1;
    last.caption.clear();
    plan.snapshot.records.push(last);
    plan.snapshot.sequence = plan.snapshot.sequence.max(plan.snapshot.records.len() as u64);
    plan.snapshot.cut = 4 + prng.between(1, 4 * d as u64) as usize;
}

pub fn id_twice(prng: &mut Prng, plan: &mut PairPlan) {
    let record = some_record(prng, plan);
    record.flag = 0;
    let again = record.clone();
    let place = prng.index(plan.snapshot.records.len() + 1);
    plan.snapshot.records.insert(place, again);
    plan.snapshot.sequence = plan.snapshot.sequence.max(plan.snapshot.records.len() as u64);
}

pub fn version_1_count(prng: &mut Prng, plan: &mut PairPlan) {
    some_record(prng, plan);
    plan.snapshot.version = 1;
    plan.snapshot.sequence = prng.below(plan.snapshot.records.len() as u64);
}
