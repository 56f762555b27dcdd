//! Graph cache reading.
use crate::{
    config::{Config, rng_state},
    crc::crc32,
    fields::Fields,
    limits::{CACHE_BYTES, LEVELS, MAX_RECORDS},
};

pub const MAGIC: &[u8; 8] = b"VECGRAPH";
pub const NO_ENTRY: u64 = u64::MAX;
/// Bytes before the first node.
pub const HEADER: usize = 48;

/// What the caller expects the cache to belong to.
pub struct Expected {
    pub config: Config,
    pub snapshot_crc: u32,
    pub sequence: u64,
    pub count: u64,
}

#[derive(Clone, Debug, PartialEq, Eq)]
pub struct Graph {
    pub entry: Option<u64>,
    pub rng: u64,
    pub starts: Vec<u64>,
    /// Per node, per level, the neighbours.
    pub links: Vec<Vec<Vec<u64>>>,
}

pub fn read_cache(expected: &Expected, bytes: &[u8], starts_lent: u64) -> Result<Graph, u32> {
    expected.config.validate()?;
    if !CACHE_BYTES.contains(&(bytes.len() as u64)) {
        return Err(1);
    }
    let (body, stored_crc) = bytes.split_at(bytes.len() - 4);
    let mut fields = Fields::new(body);
    let (entry, rng) = read_header(&mut fields, expected)?;
    let count = expected.count;
    if count > fields.left() / 5 {
        return Err(45);
    }
    if count > starts_lent {
        return Err(51);
    }
    let mut starts = Vec::new();
    let mut links = Vec::new();
    for node in 0..count {
        starts.push(fields.at() as u64);
        links.push(read_node(&mut fields, expected, node)?);
    }
    fields.finish()?;
    if crc32(body).to_le_bytes() != stored_crc {
        return Err(17);
    }
    let graph = Graph { entry, rng, starts, links };
    if an_edge_lacks_its_level(&graph) {
        return Err(49);
    }
    if entry_is_too_low(&graph) {
        return Err(50);
    }
    Ok(graph)
}

fn read_header(fields: &mut Fields, expected: &Expected) -> Result<(Option<u64>, u64), u32> {
    let is_ours = fields.take(8)? == MAGIC
        && fields.u32()? == 1
        && fields.u32()? == expected.snapshot_crc
        && fields.u64()? == expected.sequence;
    if !is_ours {
        return Err(40);
    }
    let nodes = fields.u64()?;
    if nodes != expected.count || nodes > MAX_RECORDS {
        return Err(41);
    }
    let entry = fields.u64()?;
    let entry = if entry == NO_ENTRY { None } else { Some(entry) };
    if entry.is_some_and(|entry| entry >= nodes) {
        return Err(42);
    }
    if entry.is_none() && nodes > 0 {
        return Err(43);
    }
    let rng = fields.u64()?;
    if rng != rng_state(expected.config.seed, nodes) {
        return Err(44);
    }
    Ok((entry, rng))
}

fn read_node(fields: &mut Fields, expected: &Expected, node: u64) -> Result<Vec<Vec<u64>>, u32> {
    let levels = fields.u8()?;
    if !LEVELS.contains(&levels) {
        return Err(46);
    }
    let mut layers = Vec::new();
    for level in 0..levels {
        let degree = u64::from(fields.u32()?);
        let most = if level == 0 { 2 * expected.config.m } else { expected.config.m };
        if degree > most {
            return Err(47);
        }
        let mut neighbours = Vec::new();
        for _ in 0..degree {
            let neighbour = u64::from(fields.u32()?);
            if neighbour >= expected.count || neighbour == node || neighbours.contains(&neighbour) {
                return Err(48);
            }
            neighbours.push(neighbour);
        }
        layers.push(neighbours);
    }
    Ok(layers)
}

fn an_edge_lacks_its_level(graph: &Graph) -> bool {
    graph.links.iter().any(|layers| {
        layers.iter().enumerate().any(|(level, neighbours)| {
            neighbours.iter().any(|&neighbour| graph.links[neighbour as usize].len() <= level)
        })
    })
}

fn entry_is_too_low(graph: &Graph) -> bool {
    let Some(entry) = graph.entry else { return false };
    let height = graph.links[entry as usize].len();
    graph.links.iter().any(|layers| layers.len() > height)
}
