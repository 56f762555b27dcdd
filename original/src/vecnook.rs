//! The original's calls on bytes: files are written, the original reads them, its refusals become
//! document 01's numbers. Nothing here knows of the model's answers.
use crate::{
    Config, Error, Metric, Mutation, Record, VectorIndex,
    files::{Folder, fill},
    graph,
    index::GraphState,
    messages::{Place, named_byte, number},
    storage::{self, Operation, Recovered},
};
use model::{recover::Refusal, rows::Sources};
use std::fs::{self, File};

/// An outcome of the original; the outer error is a message that has no number.
pub type Outcome<T, N> = Result<Result<T, N>, String>;

pub struct Vecnook {
    pairs: Folder,
    snapshot: File,
    log: File,
    caches: Folder,
    cache: File,
    written: Folder,
}

impl Vecnook {
    pub fn new() -> Self {
        let pairs = Folder::new();
        let caches = Folder::new();
        Self {
            snapshot: pairs.open("snapshot.bin"),
            log: pairs.open("wal.bin"),
            pairs,
            cache: caches.open("index.bin"),
            caches,
            written: Folder::new(),
        }
    }

    /// Recovery without repair, the place and byte of a refusal found by running it again.
    pub fn recover(&mut self, sources: Sources) -> Outcome<Recovered, Refusal> {
        fill(&self.snapshot, sources.snapshot);
        // The same snapshot beside an empty log tells whose refusal it is.
        let alone = self.inspect(&[]);
        let whole = match alone {
            Err(error) => return Ok(Err(Refusal::Snapshot(number(&error, Place::Snapshot)?))),
            Ok(state) if sources.log.is_empty() => return Ok(Ok(state)),
            Ok(_) => self.inspect(sources.log),
        };
        match whole {
            Ok(state) => Ok(Ok(state)),
            Err(error) => Ok(Err(self.log_refusal(sources.log, &error)?)),
        }
    }

    fn inspect(&mut self, log: &[u8]) -> Result<Recovered, Error> {
        fill(&self.log, log);
        storage::inspect(self.pairs.path(), &mut self.log)
    }

    /// The byte by its definition: the first frame whose inclusion makes recovery refuse. More
    /// frames never mend a refusal, so the first can be found by halving.
    fn log_refusal(&mut self, log: &[u8], error: &Error) -> Result<Refusal, String> {
        let whole = number(error, Place::Log)?;
        let frames = frames_by_length(log);
        if frames.is_empty() {
            return Err(format!("refused {whole} with a log that has no frame"));
        }
        let (mut low, mut high) = (0, frames.len() - 1);
        while low < high {
            let middle = (low + high) / 2;
            if self.inspect(&log[..frames[middle].1]).is_err() {
                high = middle;
            } else {
                low = middle + 1;
            }
        }
        let (at, end) = frames[low];
        let Err(error) = self.inspect(&log[..end]) else {
            return Err(format!("refused {whole} with the whole log but by no frame of it"));
        };
        if number(&error, Place::Log)? != whole {
            return Err(format!("refused {whole} with the whole log, otherwise when cut after that frame"));
        }
        if named_byte(&error).is_some_and(|named| named != at as u64) {
            return Err(format!("names another byte than {at}, where its frame begins"));
        }
        Ok(Refusal::Log { number: whole, at: at as u64 })
    }

    pub fn read_cache(
        &mut self,
        config: &Config,
        snapshot_crc: u32,
        sequence: u64,
        count: u64,
        bytes: &[u8],
    ) -> Outcome<GraphState, u32> {
        fill(&self.cache, bytes);
        match graph::read(self.caches.path(), config, sequence, snapshot_crc, count as usize) {
            Ok(graph) => Ok(Ok(graph)),
            Err(error) => Ok(Err(number(&error, Place::Cache)?)),
        }
    }

    /// The bytes of the snapshot that the original writes of these records.
    pub fn write(
        &mut self,
        config: Config,
        records: Vec<Record>,
        sequence: u64,
        compacted: bool,
    ) -> Outcome<Vec<u8>, u32> {
        let index = VectorIndex { config, records };
        let path = self.written.path();
        let outcome = if compacted {
            storage::write_compacted_snapshot(path, &index, sequence).map(|_| ())
        } else {
            storage::write_snapshot(path, &index, sequence)
        };
        match outcome {
            Ok(()) => Ok(Ok(fs::read(path.join("snapshot.bin")).map_err(|error| error.to_string())?)),
            Err(error) => Ok(Err(number(&error, Place::Input)?)),
        }
    }
}

/// First byte and end of each frame as its length field tells, the last one cut at the log's end.
fn frames_by_length(log: &[u8]) -> Vec<(usize, usize)> {
    let mut frames = Vec::new();
    let mut at = 0;
    while log.len() - at >= 8 {
        let length = u32::from_le_bytes(log[at..at + 4].try_into().unwrap()) as usize;
        let end = (at + length + 12).min(log.len());
        frames.push((at, end));
        at = end;
    }
    frames
}

/// Settings that document 01 calls valid or not; the original's fields are as wide as a request's.
pub fn config(config: &model::config::Config) -> Config {
    let mut original = Config::new(config.d as usize);
    original.m = config.m as usize;
    original.ef_construction = config.ef as usize;
    original.seed = config.seed;
    original.metric = [Metric::SquaredL2, Metric::Cosine, Metric::InnerProduct][config.metric as usize];
    original
}

pub fn settings(config: &Config) -> model::config::Config {
    model::config::Config {
        d: config.dimensions as u64,
        m: config.m as u64,
        ef: config.ef_construction as u64,
        seed: config.seed,
        metric: config.metric as u64,
    }
}

pub fn validate(config: &Config) -> Outcome<(), u32> {
    match config.validate() {
        Ok(()) => Ok(Ok(())),
        Err(error) => Ok(Err(number(&error, Place::Input)?)),
    }
}

pub fn validate_vector(metric: u64, vector: &[f32]) -> Outcome<(), u32> {
    let mut settings = model::config::Config::new(vector.len() as u64);
    settings.metric = metric;
    match config(&settings).validate_vector(vector) {
        Ok(()) => Ok(Ok(())),
        Err(error) => Ok(Err(number(&error, Place::Input)?)),
    }
}

pub fn crc32(bytes: &[u8]) -> u32 {
    storage::crc32(bytes)
}

/// As the original checks a caption.
pub fn is_utf8(bytes: &[u8]) -> bool {
    String::from_utf8(bytes.to_vec()).is_ok()
}

pub fn encode_frame(sequence: u64, operation: &Mutation) -> Vec<u8> {
    let operation = match *operation {
        Mutation::Put { id, vector, metadata } => Operation::Put { id, vector, metadata },
        Mutation::Delete { id } => Operation::Delete { id },
    };
    storage::encode_frame(sequence, operation)
}

pub fn encode_batch(sequence: u64, operations: &[Mutation]) -> Vec<u8> {
    storage::encode_batch(sequence, operations)
}

pub fn vector(bytes: &[u8]) -> Vec<f32> {
    bytes.chunks_exact(4).map(|chunk| f32::from_le_bytes(chunk.try_into().unwrap())).collect()
}
