//! The original's encoders beside the model's.
use super::check::Check;
use crate::{Mutation, vecnook};
use model::{
    answer::encode_request,
    encode::{Checked, checked_operations},
    limits::PAYLOAD_BYTES,
    reply::Reply,
    request::{ENCODE_BATCH, Request, words32, words64},
};

/// The original's encoders refuse nothing: they answer what passed document 01's checks.
pub fn encoded(
    request: &Request,
    outcome: Result<u64, u32>,
    mut output: Vec<u8>,
    check: &mut Check,
) -> Reply {
    let operation_words = words64(request.parts[0]).unwrap();
    let coordinates = words32(request.parts[1]).unwrap();
    let asked = encode_request(request, &operation_words, &coordinates).unwrap();
    let is_batch = request.call == ENCODE_BATCH;
    let Ok(operations) = checked_operations(&asked, is_batch) else {
        return Reply::Encoded { outcome, output };
    };
    let Some(frame) = original_frame(asked.sequence, &operations, is_batch) else {
        check.finding("encoder: a caption passed that is not text to Rust".into());
        return Reply::Encoded { outcome, output };
    };
    let original = if frame.len() as u64 - 12 > *PAYLOAD_BYTES.end() {
        Err(22)
    } else if frame.len() > output.len() {
        Err(32)
    } else {
        Ok(frame)
    };
    let model = outcome.map(|length| output[..length as usize].to_vec());
    let outcome = check.same("encoded frame", model, original).map(|frame| {
        output[..frame.len()].copy_from_slice(&frame);
        frame.len() as u64
    });
    Reply::Encoded { outcome, output }
}

fn original_frame(sequence: u64, operations: &[Checked], is_batch: bool) -> Option<Vec<u8>> {
    let vectors: Vec<Vec<f32>> = operations
        .iter()
        .map(|operation| match operation {
            Checked::Put { coordinates, .. } => vecnook::vector(coordinates),
            Checked::Delete { .. } => Vec::new(),
        })
        .collect();
    let mut mutations = Vec::new();
    for (operation, vector) in operations.iter().zip(&vectors) {
        mutations.push(match operation {
            Checked::Put { id, caption, .. } => {
                Mutation::Put { id: *id, vector, metadata: std::str::from_utf8(caption).ok()? }
            }
            Checked::Delete { id } => Mutation::Delete { id: *id },
        });
    }
    Some(if is_batch {
        vecnook::encode_batch(sequence, &mutations)
    } else {
        vecnook::encode_frame(sequence, &mutations[0])
    })
}

pub fn delete_frame(numbers: &[u64], written: u64, mut output: Vec<u8>, check: &mut Check) -> Reply {
    if written > 0 {
        let frame = vecnook::encode_frame(numbers[0], &Mutation::Delete { id: numbers[1] });
        let model = output[..written as usize].to_vec();
        let frame = check.same("delete frame", model, frame);
        output[..frame.len()].copy_from_slice(&frame);
    }
    Reply::DeleteFrame { written, output }
}
