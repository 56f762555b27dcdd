//! Stand-ins, written by us, for what the documents lack of the original's `index` module.
//! Nothing that they decide is compared (docs/DIFFERENCES.md).
use crate::config::Config;

#[derive(Clone, Debug, PartialEq)]
pub struct Record {
    pub id: u64,
    pub vector: Vec<f32>,
    pub metadata: String,
    pub(crate) deleted: bool,
}

impl Record {
    /// Document 01 takes it so: 13 + 4d + caption length.
    pub(crate) fn encoded_len(&self) -> usize {
        13 + 4 * self.vector.len() + self.metadata.len()
    }
}

pub(crate) struct GraphState {
    pub links: Vec<Vec<Vec<usize>>>,
    pub entry: Option<usize>,
    pub rng_state: u64,
}

pub(crate) struct Capacity {
    pub physical_nodes: usize,
}

/// Only what the snapshot writer asks for: settings and records. Its graph is always empty.
pub(crate) struct VectorIndex {
    pub config: Config,
    pub records: Vec<Record>,
}

impl VectorIndex {
    pub(crate) fn config(&self) -> &Config {
        &self.config
    }

    /// Active records.
    pub(crate) fn len(&self) -> usize {
        self.records.iter().filter(|record| !record.deleted).count()
    }

    pub(crate) fn capacity(&self) -> Capacity {
        Capacity { physical_nodes: self.records.len() }
    }

    pub(crate) fn records(&self) -> impl Iterator<Item = &Record> {
        self.records.iter()
    }

    pub(crate) fn graph_header(&self) -> (Option<usize>, u64) {
        (None, 0)
    }

    pub(crate) fn graph_links(&self) -> &[Vec<Vec<usize>>] {
        &[]
    }
}
