//! Damage to the plan of a log: a put, a sequence, the order of frames.
use super::records::{make_cosine, spoil, zeros};
use crate::generate::{
    good,
    plan::{FramePlan, OperationPlan, PairPlan},
    prng::Prng,
    values,
};

/// A put somewhere in the log gets other coordinates or another caption; the log gets one if need be.
pub fn change_put(
    prng: &mut Prng,
    plan: &mut PairPlan,
    change: impl Fn(&mut Prng, &mut Vec<u8>, &mut Vec<u8>),
) {
    let is_put = |operation: &OperationPlan| matches!(operation, OperationPlan::Put { .. });
    let with_put: Vec<usize> =
        (0..plan.frames.len()).filter(|&frame| plan.frames[frame].operations.iter().any(is_put)).collect();
    let frame = if with_put.is_empty() {
        let last = plan.frames.last().map_or(plan.snapshot.sequence, |frame| frame.sequence);
        let operations = vec![good::put(prng, &plan.snapshot.config)];
        plan.frames.push(FramePlan { sequence: last.wrapping_add(1), is_batch: false, operations });
        plan.frames.len() - 1
    } else {
        prng.pick(&with_put)
    };
    let puts = plan.frames[frame].operations.iter_mut().filter(|operation| is_put(operation));
    let mut puts: Vec<&mut OperationPlan> = puts.collect();
    let place = prng.index(puts.len());
    if let OperationPlan::Put { coordinates, caption, .. } = &mut *puts[place] {
        change(prng, coordinates, caption);
    }
}

pub fn put_not_finite(prng: &mut Prng, plan: &mut PairPlan) {
    change_put(prng, plan, |prng, coordinates, _| spoil(prng, coordinates));
}

pub fn put_cosine_zero(prng: &mut Prng, plan: &mut PairPlan) {
    make_cosine(plan);
    change_put(prng, plan, |prng, coordinates, _| zeros(prng, coordinates));
}

pub fn put_long_caption(prng: &mut Prng, plan: &mut PairPlan) {
    change_put(prng, plan, |prng, _, caption| *caption = values::long_text(prng, 16_385));
}

pub fn put_bad_text(prng: &mut Prng, plan: &mut PairPlan) {
    change_put(prng, plan, |prng, _, caption| *caption = values::bad_text(prng));
}

pub fn sequence_not_next(prng: &mut Prng, plan: &mut PairPlan) {
    if plan.frames.is_empty() {
        return;
    }
    let place = prng.index(plan.frames.len());
    let sequence = plan.frames[place].sequence;
    plan.frames[place].sequence = match prng.below(3) {
        0 => sequence.wrapping_add(1),
        1 => sequence.wrapping_sub(1),
        _ => values::edited(prng, sequence),
    };
}

pub fn sequence_zero(prng: &mut Prng, plan: &mut PairPlan) {
    if !plan.frames.is_empty() {
        let place = prng.index(plan.frames.len());
        plan.frames[place].sequence = 0;
    }
}

/// The log begins after the snapshot's next sequence.
pub fn gap_after_snapshot(prng: &mut Prng, plan: &mut PairPlan) {
    let gap = prng.between(2, 4);
    let Some(first) = plan.snapshot.sequence.checked_add(gap) else { return };
    if plan.frames.is_empty() {
        let operations = vec![good::put(prng, &plan.snapshot.config)];
        plan.frames.push(FramePlan { sequence: 0, is_batch: prng.permille(500), operations });
    }
    for (number, frame) in plan.frames.iter_mut().enumerate() {
        frame.sequence = first.saturating_add(number as u64);
    }
}

pub fn delete_inactive(prng: &mut Prng, plan: &mut PairPlan) {
    let last = plan.frames.last().map_or(plan.snapshot.sequence, |frame| frame.sequence);
    let id = if prng.permille(500) { values::id(prng) } else { 1 << 40 };
    plan.frames.push(FramePlan {
        sequence: last.wrapping_add(1),
        is_batch: prng.permille(100),
        operations: vec![OperationPlan::Delete { id }],
    });
}

pub fn swap_frames(prng: &mut Prng, plan: &mut PairPlan) {
    if plan.frames.len() > 1 {
        let place = prng.index(plan.frames.len() - 1);
        plan.frames.swap(place, place + 1);
    }
}

pub fn drop_frame(prng: &mut Prng, plan: &mut PairPlan) {
    if !plan.frames.is_empty() {
        plan.frames.remove(prng.index(plan.frames.len()));
    }
}

pub fn repeat_frame(prng: &mut Prng, plan: &mut PairPlan) {
    if !plan.frames.is_empty() {
        let place = prng.index(plan.frames.len());
        let again = plan.frames[place].clone();
        plan.frames.insert(place, again);
    }
}
