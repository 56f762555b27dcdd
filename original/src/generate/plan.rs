//! Snapshots and frames as plans: any field can be wrong, the layout is right.
use model::{config::Config, crc::crc32};

#[derive(Clone)]
pub struct RecordPlan {
    pub id: u64,
    pub flag: u8,
    pub coordinates: Vec<u8>,
    pub caption: Vec<u8>,
}

#[derive(Clone)]
pub struct SnapshotPlan {
    pub version: u32,
    pub config: Config,
    pub sequence: u64,
    pub records: Vec<RecordPlan>,
    /// So many bytes are missing at the body's end.
    pub cut: usize,
}

#[derive(Clone)]
pub enum OperationPlan {
    Put { id: u64, coordinates: Vec<u8>, caption: Vec<u8> },
    Delete { id: u64 },
}

#[derive(Clone)]
pub struct FramePlan {
    pub sequence: u64,
    pub is_batch: bool,
    pub operations: Vec<OperationPlan>,
}

#[derive(Clone)]
pub struct PairPlan {
    pub snapshot: SnapshotPlan,
    pub frames: Vec<FramePlan>,
    pub tail: Vec<u8>,
}

/// Where a field stands, so that it can be edited.
#[derive(Clone, Copy, PartialEq, Eq, Debug)]
pub struct Field {
    pub kind: Kind,
    pub at: usize,
    pub width: usize,
}

#[derive(Clone, Copy, PartialEq, Eq, Debug)]
pub enum Kind {
    Magic,
    Version,
    D,
    M,
    Ef,
    Metric,
    Seed,
    Sequence,
    Count,
    Id,
    Flag,
    Coordinate,
    CaptionLength,
    Opcode,
    Tag,
    SnapshotCrc,
    Entry,
    Rng,
    Levels,
    Degree,
    Neighbour,
}

/// Bytes that grow, and the places of their fields.
#[derive(Default, Clone)]
pub struct Laid {
    pub bytes: Vec<u8>,
    pub fields: Vec<Field>,
}

impl Laid {
    pub fn push(&mut self, kind: Kind, bytes: &[u8]) {
        self.fields.push(Field { kind, at: self.bytes.len(), width: bytes.len() });
        self.bytes.extend(bytes);
    }

    pub fn u8(&mut self, kind: Kind, value: u8) {
        self.push(kind, &[value]);
    }

    pub fn u32(&mut self, kind: Kind, value: u32) {
        self.push(kind, &value.to_le_bytes());
    }

    pub fn u64(&mut self, kind: Kind, value: u64) {
        self.push(kind, &value.to_le_bytes());
    }

    fn vector_and_caption(&mut self, coordinates: &[u8], caption: &[u8]) {
        for coordinate in coordinates.chunks(4) {
            self.push(Kind::Coordinate, coordinate);
        }
        self.u32(Kind::CaptionLength, caption.len() as u32);
        self.bytes.extend(caption);
    }

    pub fn cut(&mut self, missing: usize) {
        let length = self.bytes.len().saturating_sub(missing);
        self.bytes.truncate(length);
        self.fields.retain(|field| field.at + field.width <= length);
    }

    pub fn places(&self, kind: Kind) -> Vec<Field> {
        self.fields.iter().copied().filter(|field| field.kind == kind).collect()
    }

    pub fn value(&self, field: Field) -> u64 {
        let mut word = [0; 8];
        let width = field.width.min(8);
        word[..width].copy_from_slice(&self.bytes[field.at..field.at + width]);
        u64::from_le_bytes(word)
    }

    /// The low bytes of the value go into the field.
    pub fn set(&mut self, field: Field, value: u64) {
        let width = field.width.min(8);
        self.bytes[field.at..field.at + width].copy_from_slice(&value.to_le_bytes()[..width]);
    }
}

impl SnapshotPlan {
    /// The body, without its CRC.
    pub fn lay(&self) -> Laid {
        let config = self.config;
        let mut laid = Laid::default();
        laid.push(Kind::Magic, b"VECTORS1");
        laid.u32(Kind::Version, self.version);
        laid.u32(Kind::D, config.d as u32);
        laid.u32(Kind::M, config.m as u32);
        laid.u32(Kind::Ef, config.ef as u32);
        if self.version == 2 {
            laid.u32(Kind::Metric, config.metric as u32);
        }
        laid.u64(Kind::Seed, config.seed);
        laid.u64(Kind::Sequence, self.sequence);
        laid.u64(Kind::Count, self.records.len() as u64);
        for record in &self.records {
            laid.u64(Kind::Id, record.id);
            laid.u8(Kind::Flag, record.flag);
            laid.vector_and_caption(&record.coordinates, &record.caption);
        }
        laid.cut(self.cut);
        laid
    }
}

impl FramePlan {
    /// The payload alone.
    pub fn lay(&self) -> Laid {
        let mut laid = Laid::default();
        if self.is_batch {
            laid.u8(Kind::Opcode, 3);
            laid.u64(Kind::Sequence, self.sequence);
            laid.u32(Kind::Count, self.operations.len() as u32);
            for operation in &self.operations {
                laid.u8(Kind::Tag, operation.tag());
                operation.lay(&mut laid);
            }
        } else {
            laid.u8(Kind::Opcode, self.operations[0].tag());
            laid.u64(Kind::Sequence, self.sequence);
            self.operations[0].lay(&mut laid);
        }
        laid
    }
}

impl OperationPlan {
    fn tag(&self) -> u8 {
        match self {
            Self::Put { .. } => 1,
            Self::Delete { .. } => 2,
        }
    }

    fn lay(&self, laid: &mut Laid) {
        match self {
            Self::Put { id, coordinates, caption } => {
                laid.u64(Kind::Id, *id);
                laid.vector_and_caption(coordinates, caption);
            }
            Self::Delete { id } => laid.u64(Kind::Id, *id),
        }
    }
}

/// A body and its CRC.
pub fn with_crc(body: &[u8]) -> Vec<u8> {
    let mut bytes = body.to_vec();
    bytes.extend(crc32(body).to_le_bytes());
    bytes
}

/// The last four bytes made the CRC of those before.
pub fn repair_crc(bytes: &mut [u8]) {
    if let Some(body) = bytes.len().checked_sub(4) {
        let crc = crc32(&bytes[..body]);
        bytes[body..].copy_from_slice(&crc.to_le_bytes());
    }
}

/// Every CRC of the log made right, as far as its length fields lead.
pub fn repair_log(log: &mut [u8]) {
    let mut at = 0;
    while log.len() - at >= 8 {
        let length = u32::from_le_bytes(log[at..at + 4].try_into().unwrap()) as usize;
        let crc = crc32(&log[at..at + 4]);
        log[at + 4..at + 8].copy_from_slice(&crc.to_le_bytes());
        if log.len() - at < length + 12 {
            return;
        }
        let end = at + 8 + length;
        let crc = crc32(&log[at + 8..end]);
        log[end..end + 4].copy_from_slice(&crc.to_le_bytes());
        at = end + 4;
    }
}
