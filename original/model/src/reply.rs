//! An answer as values, and its text.
use crate::{cache::Graph, config::Config, recover::Refusal, text};
use std::fmt::Write;

#[derive(Clone, Debug, PartialEq, Eq)]
pub struct Record {
    pub id: u64,
    pub deleted: bool,
    pub coordinates: Vec<u8>,
    pub caption: Vec<u8>,
}

/// What recovery tells besides what snapshot reading tells.
#[derive(Clone, Debug, PartialEq, Eq)]
pub struct LogCounts {
    pub replayed: u64,
    pub skipped: u64,
    pub keep: u64,
    pub tail: u64,
}

#[derive(Clone, Debug, PartialEq, Eq)]
pub struct Accepted {
    pub config: Config,
    pub snapshot_crc: u32,
    pub sequence: u64,
    pub active: u64,
    pub log: Option<LogCounts>,
    pub size: u64,
    pub records: Vec<Record>,
}

#[derive(Clone, Debug, PartialEq, Eq)]
pub enum WriteRefusal {
    Recovery(Refusal),
    Writer(u32),
}

#[derive(Clone, Debug, PartialEq, Eq)]
pub enum Reply {
    BadRequest,
    TooLarge,
    Crc(u32),
    Utf8(bool),
    Settings(Config),
    Validated(Result<(), u32>),
    Rng(u64),
    Read { outcome: Result<Accepted, Refusal>, rows: Vec<u64>, active: Vec<u64> },
    Listing(Vec<u8>),
    Encoded { outcome: Result<u64, u32>, output: Vec<u8> },
    Written { outcome: Result<u64, WriteRefusal>, output: Vec<u8> },
    Lookup(Result<Option<u64>, u32>),
    View { number: u32, part: Vec<u8> },
    Cache { outcome: Result<Graph, u32>, starts: Vec<u64> },
    DeleteFrame { written: u64, output: Vec<u8> },
}

impl Reply {
    /// The whole text, the last line `.` included.
    pub fn text(&self) -> String {
        let mut text = self.head();
        text.push('\n');
        self.push_rest(&mut text);
        text.push_str(".\n");
        text
    }

    /// The first line.
    pub fn head(&self) -> String {
        match self {
            Self::BadRequest => "bad request".into(),
            Self::TooLarge => "too large".into(),
            Self::Crc(crc) => format!("crc {crc}"),
            Self::Utf8(good) => format!("utf8 {}", if *good { "yes" } else { "no" }),
            Self::Settings(config) => format!("settings {}", text::set(config)),
            Self::Validated(Ok(())) => "valid".into(),
            Self::Validated(Err(number)) => format!("refused {number}"),
            Self::Rng(state) => format!("rng {state}"),
            Self::Read { outcome: Ok(accepted), .. } => accepted_line(accepted),
            Self::Read { outcome: Err(refusal), .. } => refusal_line(refusal),
            Self::Listing(listing) => format!("listing {}", text::bytes(listing)),
            Self::Encoded { outcome: Ok(length), .. } => format!("encoded {length}"),
            Self::Encoded { outcome: Err(number), .. } => format!("refused {number}"),
            Self::Written { outcome: Ok(length), .. } => format!("written {length}"),
            Self::Written { outcome: Err(WriteRefusal::Recovery(refusal)), .. } => refusal_line(refusal),
            Self::Written { outcome: Err(WriteRefusal::Writer(number)), .. } => format!("refused {number}"),
            Self::Lookup(Ok(Some(node))) => format!("node {node}"),
            Self::Lookup(Ok(None)) => "none".into(),
            Self::Lookup(Err(number)) => format!("refused {number}"),
            Self::View { number, .. } => format!("number {number}"),
            Self::Cache { outcome: Ok(graph), .. } => graph_line(graph),
            Self::Cache { outcome: Err(number), .. } => format!("refused {number}"),
            Self::DeleteFrame { written, .. } => format!("written {written}"),
        }
    }

    fn push_rest(&self, text: &mut String) {
        match self {
            Self::Read { outcome, rows, active } => {
                push_line(text, &format!("rows {}", text::words(rows)));
                push_line(text, &format!("active {}", text::words(active)));
                if let Ok(accepted) = outcome {
                    push_records(text, &accepted.records);
                }
            }
            Self::Encoded { output, .. }
            | Self::Written { output, .. }
            | Self::DeleteFrame { output, .. } => {
                push_line(text, &format!("output {}", text::bytes(output)));
            }
            Self::View { part, .. } => push_line(text, &format!("part {}", text::bytes(part))),
            Self::Cache { outcome, starts } => {
                push_line(text, &format!("starts {}", text::words(starts)));
                if let Ok(graph) = outcome {
                    push_nodes(text, graph);
                }
            }
            _ => {}
        }
    }
}

fn push_line(text: &mut String, line: &str) {
    text.push_str(line);
    text.push('\n');
}

pub fn refusal_line(refusal: &Refusal) -> String {
    match refusal {
        Refusal::Snapshot(number) => format!("refused snapshot {number}"),
        Refusal::Log { number, at } => format!("refused log {number} at {at}"),
    }
}

fn accepted_line(accepted: &Accepted) -> String {
    let mut line = format!(
        "accepted {} crc {} sequence {} records {} active {}",
        text::set(&accepted.config),
        accepted.snapshot_crc,
        accepted.sequence,
        accepted.records.len(),
        accepted.active
    );
    if let Some(LogCounts { replayed, skipped, keep, tail }) = &accepted.log {
        write!(line, " replayed {replayed} skipped {skipped} keep {keep} tail {tail}").unwrap();
    }
    write!(line, " size {}", accepted.size).unwrap();
    line
}

fn push_records(text: &mut String, records: &[Record]) {
    for (node, record) in records.iter().enumerate() {
        let state = if record.deleted { "gone" } else { "live" };
        let coordinates = text::bytes(&record.coordinates);
        let caption = text::bytes(&record.caption);
        push_line(text, &format!("{node} {} {state} {coordinates} {caption}", record.id));
    }
}

fn graph_line(graph: &Graph) -> String {
    let entry = graph.entry.map_or("none".into(), |entry| entry.to_string());
    format!("accepted nodes {} entry {entry} rng {}", graph.links.len(), graph.rng)
}

fn push_nodes(text: &mut String, graph: &Graph) {
    for (node, layers) in graph.links.iter().enumerate() {
        let lists: Vec<String> = layers
            .iter()
            .map(|neighbours| if neighbours.is_empty() { "-".into() } else { text::joined(neighbours) })
            .collect();
        push_line(text, &format!("{node} {} {}", layers.len(), lists.join("|")));
    }
}
