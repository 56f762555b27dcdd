//! Requests: the binary format of docs/QUESTIONS.md, read and written.

pub const CRC: u8 = 1;
pub const UTF8: u8 = 2;
pub const DEFAULTS: u8 = 3;
pub const VALIDATE: u8 = 4;
pub const COORDINATES: u8 = 5;
pub const RNG_STATE: u8 = 6;
pub const READ_SNAPSHOT: u8 = 7;
pub const RECOVER: u8 = 8;
pub const LISTING: u8 = 9;
pub const ENCODE_FRAME: u8 = 10;
pub const ENCODE_BATCH: u8 = 11;
pub const WRITE_SNAPSHOT: u8 = 12;
pub const WRITE_COMPACTED: u8 = 13;
pub const RECOVER_WRITE: u8 = 14;
pub const RECOVER_COMPACT: u8 = 15;
pub const LOOKUP: u8 = 16;
pub const CAPTION_VIEW: u8 = 17;
pub const VECTOR_VIEW: u8 = 18;
pub const READ_CACHE: u8 = 19;
pub const NEIGHBOURS: u8 = 20;
pub const C_CRC: u8 = 21;
pub const C_UTF8: u8 = 22;
pub const C_DELETE_FRAME: u8 = 23;

/// Name, how many numbers, how many parts: the calls 1, 2, 3 and so on.
pub const CALLS: [(&str, usize, usize); 23] = [
    ("crc", 0, 1),
    ("utf8", 0, 1),
    ("defaults", 1, 0),
    ("validate", 5, 0),
    ("coordinates", 1, 1),
    ("rng_state", 2, 0),
    ("read_snapshot", 3, 1),
    ("recover", 3, 2),
    ("listing", 0, 2),
    ("encode_frame", 8, 3),
    ("encode_batch", 8, 3),
    ("write_snapshot", 9, 3),
    ("write_compacted_snapshot", 9, 3),
    ("recover+write_snapshot", 5, 2),
    ("recover+write_compacted", 5, 2),
    ("lookup", 2, 1),
    ("caption_view", 3, 3),
    ("vector_view", 3, 3),
    ("read_cache", 10, 1),
    ("neighbours_view", 3, 2),
    ("C crc", 0, 1),
    ("C utf8", 0, 1),
    ("C delete_frame", 4, 0),
];

pub fn call_name(call: u8) -> &'static str {
    match usize::from(call).checked_sub(1).and_then(|index| CALLS.get(index)) {
        Some((name, _, _)) => name,
        None => "unknown",
    }
}

#[derive(Clone, Debug, PartialEq, Eq)]
pub struct Request<'a> {
    pub call: u8,
    pub numbers: Vec<u64>,
    pub parts: Vec<&'a [u8]>,
}

impl<'a> Request<'a> {
    /// From the bytes after the length field; none if they do not add up or are no call's.
    pub fn parse(bytes: &'a [u8]) -> Option<Self> {
        let mut rest = bytes;
        let call = take(&mut rest, 1)?[0];
        let &(_, numbers_wanted, parts_wanted) = CALLS.get(usize::from(call).checked_sub(1)?)?;
        if usize::from(take(&mut rest, 1)?[0]) != numbers_wanted {
            return None;
        }
        let numbers = words64(take(&mut rest, 8 * numbers_wanted)?)?;
        if usize::from(take(&mut rest, 1)?[0]) != parts_wanted {
            return None;
        }
        let mut parts = Vec::new();
        for _ in 0..parts_wanted {
            let length = u32::from_le_bytes(take(&mut rest, 4)?.try_into().unwrap());
            parts.push(take(&mut rest, length as usize)?);
        }
        rest.is_empty().then_some(Self { call, numbers, parts })
    }

    /// The bytes after the length field.
    pub fn body(&self) -> Vec<u8> {
        body(self.call, &self.numbers, &self.parts)
    }
}

pub fn body(call: u8, numbers: &[u64], parts: &[&[u8]]) -> Vec<u8> {
    let size = 3 + 8 * numbers.len() + parts.iter().map(|part| 4 + part.len()).sum::<usize>();
    let mut bytes = Vec::with_capacity(size);
    bytes.extend([call, numbers.len() as u8]);
    for number in numbers {
        bytes.extend(number.to_le_bytes());
    }
    bytes.push(parts.len() as u8);
    for part in parts {
        bytes.extend((part.len() as u32).to_le_bytes());
        bytes.extend_from_slice(part);
    }
    bytes
}

/// A request as it stands in a stream: its length, then its body.
pub fn with_length(body: &[u8]) -> Vec<u8> {
    let mut bytes = (body.len() as u32).to_le_bytes().to_vec();
    bytes.extend(body);
    bytes
}

/// The bodies of a stream of requests; an error tells the byte where a request is cut short.
pub fn split_stream(stream: &[u8]) -> Result<Vec<&[u8]>, usize> {
    let mut bodies = Vec::new();
    let mut rest = stream;
    while !rest.is_empty() {
        let at = stream.len() - rest.len();
        let head = take(&mut rest, 4).ok_or(at)?;
        let length = u32::from_le_bytes(head.try_into().unwrap());
        bodies.push(take(&mut rest, length as usize).ok_or(at)?);
    }
    Ok(bodies)
}

fn take<'a>(rest: &mut &'a [u8], length: usize) -> Option<&'a [u8]> {
    if length > rest.len() {
        return None;
    }
    let (first, after) = rest.split_at(length);
    *rest = after;
    Some(first)
}

pub fn words64(bytes: &[u8]) -> Option<Vec<u64>> {
    let words = bytes.chunks_exact(8).map(|chunk| u64::from_le_bytes(chunk.try_into().unwrap()));
    (bytes.len() % 8 == 0).then(|| words.collect())
}

pub fn words32(bytes: &[u8]) -> Option<Vec<u32>> {
    let words = bytes.chunks_exact(4).map(|chunk| u32::from_le_bytes(chunk.try_into().unwrap()));
    (bytes.len() % 4 == 0).then(|| words.collect())
}

pub fn bytes_of_words64(words: &[u64]) -> Vec<u8> {
    words.iter().flat_map(|word| word.to_le_bytes()).collect()
}

pub fn bytes_of_words32(words: &[u32]) -> Vec<u8> {
    words.iter().flat_map(|word| word.to_le_bytes()).collect()
}
