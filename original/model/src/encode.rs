//! Frame and batch encoding, with document 01's checks; a refusal changes no byte.
use crate::{
    config::Config,
    coordinates::check_coordinates,
    crc::crc32,
    limits::{BATCH_OPERATIONS, MAX_CAPTION, PAYLOAD_BYTES},
    log::{AROUND, BATCH, DELETE, PUT},
    rows::part,
    utf8::is_utf8,
};

pub struct Request<'a> {
    pub config: Config,
    pub sequence: u64,
    pub operation_words: &'a [u64],
    pub coordinates: &'a [u32],
    pub captions: &'a [u8],
}

/// An operation that passed every check, ready to be written.
pub enum Checked<'a> {
    Put { id: u64, coordinates: Vec<u8>, caption: &'a [u8] },
    Delete { id: u64 },
}

struct Word {
    is_put: bool,
    caption_length: u64,
    caption_offset: u64,
}

impl Word {
    /// Most significant first: put 1, caption length 15, caption offset 48.
    fn from(packed: u64) -> Self {
        Self {
            is_put: packed >> 63 == 1,
            caption_length: packed >> 48 & 0x7FFF,
            caption_offset: packed & 0xFFFF_FFFF_FFFF,
        }
    }
}

pub fn operation_word(caption_length: u64, caption_offset: u64) -> u64 {
    1 << 63 | caption_length << 48 | caption_offset
}

pub fn encode_frame(request: &Request, output: &mut [u8]) -> Result<u64, u32> {
    let operations = checked_operations(request, false)?;
    check_length(9 + fields_length(&operations[0]), output)?;
    let mut payload = vec![tag(&operations[0])];
    payload.extend(request.sequence.to_le_bytes());
    push_fields(&mut payload, &operations[0]);
    Ok(write_frame(&payload, output))
}

pub fn encode_batch(request: &Request, output: &mut [u8]) -> Result<u64, u32> {
    let operations = checked_operations(request, true)?;
    check_length(13 + operations.iter().map(|operation| 1 + fields_length(operation)).sum::<u64>(), output)?;
    let mut payload = vec![BATCH];
    payload.extend(request.sequence.to_le_bytes());
    payload.extend((operations.len() as u32).to_le_bytes());
    for operation in &operations {
        payload.push(tag(operation));
        push_fields(&mut payload, operation);
    }
    Ok(write_frame(&payload, output))
}

/// Every check but 22 and 32, in document 01's order.
pub fn checked_operations<'a>(request: &Request<'a>, is_batch: bool) -> Result<Vec<Checked<'a>>, u32> {
    request.config.validate()?;
    if request.sequence == 0 {
        return Err(24);
    }
    let words = request.operation_words;
    let count = (words.len() / 2) as u64;
    if is_batch && !BATCH_OPERATIONS.contains(&count) {
        return Err(25);
    }
    if words.len() % 2 == 1 {
        return Err(33);
    }
    if !is_batch && count != 1 {
        return Err(33);
    }
    let puts = words.chunks_exact(2).filter(|pair| Word::from(pair[1]).is_put).count() as u64;
    if request.coordinates.len() as u64 != request.config.d * puts {
        return Err(33);
    }
    let mut vectors = request.coordinates.chunks_exact(request.config.d as usize);
    let mut operations = Vec::new();
    for pair in words.chunks_exact(2) {
        let word = Word::from(pair[1]);
        if word.is_put {
            let vector = vectors.next().unwrap();
            operations.push(checked_put(request, pair[0], &word, vector)?);
        } else {
            if pair[1] != 0 {
                return Err(33);
            }
            operations.push(Checked::Delete { id: pair[0] });
        }
    }
    Ok(operations)
}

fn checked_put<'a>(request: &Request<'a>, id: u64, word: &Word, vector: &[u32]) -> Result<Checked<'a>, u32> {
    if word.caption_length > MAX_CAPTION {
        return Err(14);
    }
    let caption = part(request.captions, word.caption_offset, word.caption_length).ok_or(33u32)?;
    let coordinates: Vec<u8> = vector.iter().flat_map(|bits| bits.to_le_bytes()).collect();
    check_coordinates(request.config.metric, &coordinates)?;
    if !is_utf8(caption) {
        return Err(15);
    }
    Ok(Checked::Put { id, coordinates, caption })
}

fn tag(operation: &Checked) -> u8 {
    match operation {
        Checked::Put { .. } => PUT,
        Checked::Delete { .. } => DELETE,
    }
}

fn push_fields(payload: &mut Vec<u8>, operation: &Checked) {
    match operation {
        Checked::Put { id, coordinates, caption } => {
            payload.extend(id.to_le_bytes());
            payload.extend(coordinates);
            payload.extend((caption.len() as u32).to_le_bytes());
            payload.extend(*caption);
        }
        Checked::Delete { id } => payload.extend(id.to_le_bytes()),
    }
}

/// Bytes of an operation after its tag.
fn fields_length(operation: &Checked) -> u64 {
    match operation {
        Checked::Put { coordinates, caption, .. } => 8 + coordinates.len() as u64 + 4 + caption.len() as u64,
        Checked::Delete { .. } => 8,
    }
}

fn check_length(payload: u64, output: &[u8]) -> Result<(), u32> {
    if !PAYLOAD_BYTES.contains(&payload) {
        return Err(22);
    }
    if payload + AROUND > output.len() as u64 {
        return Err(32);
    }
    Ok(())
}

fn write_frame(payload: &[u8], output: &mut [u8]) -> u64 {
    let frame = framed(payload);
    output[..frame.len()].copy_from_slice(&frame);
    frame.len() as u64
}

/// A payload of any length between its length, that length's CRC and its own CRC.
pub fn framed(payload: &[u8]) -> Vec<u8> {
    let length = (payload.len() as u32).to_le_bytes();
    let mut frame = Vec::with_capacity(payload.len() + AROUND as usize);
    frame.extend(length);
    frame.extend(crc32(&length).to_le_bytes());
    frame.extend(payload);
    frame.extend(crc32(payload).to_le_bytes());
    frame
}

/// The C entry: 29, or 0 and nothing written.
pub fn delete_frame(sequence: u64, id: u64, room: &mut [u8]) -> u64 {
    if sequence == 0 || room.len() < 29 {
        return 0;
    }
    let mut payload = vec![DELETE];
    payload.extend(sequence.to_le_bytes());
    payload.extend(id.to_le_bytes());
    room[..29].copy_from_slice(&framed(&payload));
    29
}
