//! Damage to a pair: first to its plan, so that only one thing is wrong and every CRC is right,
//! then to its bytes.
mod bytes;
mod fields;
mod frames;
mod records;

use super::{
    good,
    plan::{FramePlan, Kind, Laid, PairPlan, with_crc},
    prng::Prng,
};
use bytes::*;
use fields::*;
use frames::*;
use model::encode::framed;
use records::*;

/// A pair as it will be handed in.
pub struct PairBytes {
    pub snapshot: Vec<u8>,
    pub log: Vec<u8>,
}

/// What a damage is done to: the plan before it is laid, a snapshot's body or a frame's payload
/// before CRCs are put on, or the bytes as they will be handed in.
#[derive(Clone, Copy)]
enum Damage {
    Plan(fn(&mut Prng, &mut PairPlan)),
    Snapshot(fn(&mut Prng, &mut Laid)),
    Frame(fn(&mut Prng, &mut Laid)),
    Bytes(fn(&mut Prng, &mut PairBytes)),
}

use Damage::{Bytes, Frame, Plan, Snapshot};

/// Each as likely as the others.
const DAMAGES: &[Damage] = &[
    Plan(record_flag),
    Plan(record_not_finite),
    Plan(record_cosine_zero),
    Plan(record_long_caption),
    Plan(record_bad_text),
    Plan(record_vector_cut),
    Plan(id_twice),
    Plan(version_1_count),
    Plan(put_not_finite),
    Plan(put_cosine_zero),
    Plan(put_long_caption),
    Plan(put_bad_text),
    Plan(sequence_not_next),
    Plan(sequence_zero),
    Plan(gap_after_snapshot),
    Plan(delete_inactive),
    Plan(swap_frames),
    Plan(drop_frame),
    Plan(repeat_frame),
    Snapshot(|prng, laid| edit(prng, laid, Kind::Magic)),
    Snapshot(|prng, laid| edit(prng, laid, Kind::Version)),
    Snapshot(|prng, laid| edit_to(prng, laid, Kind::Metric, &[3, 4, 255, 1 << 31])),
    Snapshot(|prng, laid| edit_to(prng, laid, Kind::D, &[0, 4097, 1 << 31])),
    Snapshot(|prng, laid| edit_to(prng, laid, Kind::M, &[0, 1, 65, 1 << 31])),
    Snapshot(|prng, laid| edit_to(prng, laid, Kind::Ef, &[0, 1, 4097, 1 << 31])),
    Snapshot(|prng, laid| edit(prng, laid, Kind::Count)),
    Snapshot(|prng, laid| edit(prng, laid, Kind::CaptionLength)),
    Snapshot(cut_body),
    Snapshot(shortest_files),
    Snapshot(extra_bytes),
    Snapshot(any_field),
    Frame(|prng, laid| edit(prng, laid, Kind::Opcode)),
    Frame(|prng, laid| edit(prng, laid, Kind::Sequence)),
    Frame(|prng, laid| edit(prng, laid, Kind::Count)),
    Frame(|prng, laid| edit(prng, laid, Kind::Tag)),
    Frame(|prng, laid| edit(prng, laid, Kind::CaptionLength)),
    Frame(cut_body),
    Frame(extra_bytes),
    Frame(any_field),
    Bytes(|prng, pair| cut(prng, &mut pair.snapshot)),
    Bytes(|prng, pair| cut(prng, &mut pair.log)),
    Bytes(|prng, pair| pair.snapshot.truncate(prng.index(53))),
    Bytes(|prng, pair| flip_bit(prng, &mut pair.snapshot)),
    Bytes(|prng, pair| flip_bit(prng, &mut pair.log)),
    Bytes(|prng, pair| flip_bit_of_last(prng, &mut pair.snapshot, 4)),
    Bytes(repaired_bit_of_snapshot),
    Bytes(repaired_bit_of_log),
    Bytes(length_crc),
    Bytes(length_field),
    Bytes(length_field),
    Bytes(payload_crc),
    Bytes(any_byte),
    Bytes(stray_head),
];

/// One damage, sometimes two.
pub fn damaged(prng: &mut Prng, mut plan: PairPlan) -> PairBytes {
    let count = if prng.permille(120) { 2 } else { 1 };
    let chosen: Vec<Damage> = (0..count).map(|_| prng.pick(DAMAGES)).collect();
    for damage in &chosen {
        match damage {
            Plan(damage) => damage(prng, &mut plan),
            Frame(_) => append_batch(prng, &mut plan),
            _ => {}
        }
    }
    let mut snapshot = plan.snapshot.lay();
    let mut payloads: Vec<Laid> = plan.frames.iter().map(FramePlan::lay).collect();
    for damage in &chosen {
        match damage {
            Snapshot(damage) => damage(prng, &mut snapshot),
            Frame(damage) if !payloads.is_empty() => {
                let frame = prng.index(payloads.len());
                damage(prng, &mut payloads[frame]);
            }
            _ => {}
        }
    }
    let mut pair = PairBytes { snapshot: with_crc(&snapshot.bytes), log: log_bytes(&payloads, &plan.tail) };
    for damage in &chosen {
        if let Bytes(damage) = damage {
            damage(prng, &mut pair);
        }
    }
    pair
}

/// So that there is a frame with every field that can be edited.
fn append_batch(prng: &mut Prng, plan: &mut PairPlan) {
    let last = plan.frames.last().map_or(plan.snapshot.sequence, |frame| frame.sequence);
    if let Some(sequence) = last.checked_add(1) {
        let operations = (0..2).map(|_| good::put(prng, &plan.snapshot.config)).collect();
        plan.frames.push(FramePlan { sequence, is_batch: true, operations });
    }
}

pub fn undamaged(plan: &PairPlan) -> PairBytes {
    let payloads: Vec<Laid> = plan.frames.iter().map(FramePlan::lay).collect();
    PairBytes { snapshot: with_crc(&plan.snapshot.lay().bytes), log: log_bytes(&payloads, &plan.tail) }
}

fn log_bytes(payloads: &[Laid], tail: &[u8]) -> Vec<u8> {
    let mut log: Vec<u8> = payloads.iter().flat_map(|payload| framed(&payload.bytes)).collect();
    log.extend(tail);
    log
}
