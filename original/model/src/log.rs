//! One frame of the log: checked and decoded, not yet applied.
use crate::{
    config::Config,
    crc::crc32,
    fields::Fields,
    limits::{BATCH_OPERATIONS, PAYLOAD_BYTES},
    rows::Row,
    snapshot::read_checked_vector_and_caption,
};

pub const PUT: u8 = 1;
pub const DELETE: u8 = 2;
pub const BATCH: u8 = 3;
/// Bytes of a frame before its payload, and of the whole frame besides its payload.
pub const HEAD: u64 = 8;
pub const AROUND: u64 = 12;

pub enum Operation {
    Put(Row),
    Delete(u64),
}

pub struct Frame {
    pub sequence: u64,
    pub is_batch: bool,
    pub operations: Vec<Operation>,
    pub end: u64,
}

pub enum Next {
    Tail,
    Frame(Frame),
}

/// What stands at byte `at`; `previous` is the sequence of the frame before.
pub fn next_frame(log: &[u8], at: u64, config: &Config, previous: Option<u64>) -> Result<Next, u32> {
    let rest = &log[at as usize..];
    let left = rest.len() as u64;
    if left < HEAD {
        return Ok(Next::Tail);
    }
    if crc32(&rest[..4]).to_le_bytes() != rest[4..8] {
        return Err(21);
    }
    let length = u64::from(u32::from_le_bytes(rest[..4].try_into().unwrap()));
    if !PAYLOAD_BYTES.contains(&length) {
        return Err(22);
    }
    if left < length + AROUND {
        return Ok(Next::Tail);
    }
    let (payload, after) = rest[HEAD as usize..].split_at(length as usize);
    if crc32(payload).to_le_bytes() != after[..4] {
        return Err(23);
    }
    let mut frame = decode_payload(payload, at + HEAD, config, previous)?;
    frame.end = at + length + AROUND;
    Ok(Next::Frame(frame))
}

fn decode_payload(
    payload: &[u8],
    payload_at: u64,
    config: &Config,
    previous: Option<u64>,
) -> Result<Frame, u32> {
    let mut fields = Fields::new(payload);
    let opcode = fields.u8()?;
    let sequence = fields.u64()?;
    if sequence == 0 {
        return Err(24);
    }
    if previous.is_some_and(|previous| previous.checked_add(1) != Some(sequence)) {
        return Err(24);
    }
    let is_batch = opcode == BATCH;
    let mut operations = Vec::new();
    if is_batch {
        let count = u64::from(fields.u32()?);
        if !BATCH_OPERATIONS.contains(&count) || count > fields.left() / 9 {
            return Err(25);
        }
        for _ in 0..count {
            let tag = fields.u8()?;
            operations.push(decode_operation(tag, &mut fields, payload_at, config)?);
        }
    } else {
        operations.push(decode_operation(opcode, &mut fields, payload_at, config)?);
    }
    fields.finish()?;
    Ok(Frame { sequence, is_batch, operations, end: 0 })
}

fn decode_operation(
    tag: u8,
    fields: &mut Fields,
    payload_at: u64,
    config: &Config,
) -> Result<Operation, u32> {
    let id = fields.u64()?;
    match tag {
        PUT => {
            let offset = payload_at + fields.at() as u64;
            let coordinates = fields.take(4 * config.d)?;
            let caption_length = read_checked_vector_and_caption(fields, config, coordinates)?;
            Ok(Operation::Put(Row { id, deleted: false, from_log: true, caption_length, offset }))
        }
        DELETE => Ok(Operation::Delete(id)),
        _ => Err(26),
    }
}
