//! Caches: good graphs, and requests made of them.
mod damage;
mod neighbours;

use super::{
    plan::{Kind, Laid, with_crc},
    prng::Prng,
    values,
};
use model::{
    cache::{MAGIC, NO_ENTRY},
    config::{Config, rng_state},
    request::{self, READ_CACHE},
};
pub use neighbours::neighbours_request;

struct CachePlan {
    config: Config,
    snapshot_crc: u32,
    sequence: u64,
    entry: u64,
    rng: u64,
    /// What file and caller tell; the number of nodes unless damaged.
    count: u64,
    /// Per node, per level, the neighbours.
    nodes: Vec<Vec<Vec<u32>>>,
}

fn good(prng: &mut Prng) -> CachePlan {
    let mut config = values::config(prng);
    config.m = if prng.permille(600) { prng.between(2, 4) } else { config.m };
    config.ef = config.ef.max(config.m);
    let heights = heights(prng);
    let nodes = (0..heights.len()).map(|node| layers(prng, &config, &heights, node)).collect();
    let highest = heights.iter().max();
    let entries: Vec<u64> =
        (0..heights.len() as u64).filter(|&node| Some(&heights[node as usize]) == highest).collect();
    CachePlan {
        rng: rng_state(config.seed, heights.len() as u64),
        config,
        snapshot_crc: prng.next() as u32,
        sequence: if prng.permille(500) { prng.below(9) } else { prng.next() },
        count: heights.len() as u64,
        entry: if entries.is_empty() { NO_ENTRY } else { prng.pick(&entries) },
        nodes,
    }
}

fn heights(prng: &mut Prng) -> Vec<usize> {
    let count = match prng.below(20) {
        0 => 0,
        1 => 1,
        2 => prng.between(9, 30),
        _ => prng.between(2, 8),
    };
    (0..count)
        .map(|_| match prng.below(60) {
            0 => 33,
            1..6 => prng.between(3, 6) as usize,
            6..20 => 2,
            _ => 1,
        })
        .collect()
}

fn layers(prng: &mut Prng, config: &Config, heights: &[usize], node: usize) -> Vec<Vec<u32>> {
    (0..heights[node])
        .map(|level| {
            let most = if level == 0 { 2 * config.m } else { config.m } as usize;
            let mut candidates: Vec<u32> = (0..heights.len())
                .filter(|&other| other != node && heights[other] > level)
                .map(|other| other as u32)
                .collect();
            let degree = match prng.below(4) {
                0 => 0,
                1 => most.min(candidates.len()),
                _ => prng.index(most.min(candidates.len()) + 1),
            };
            (0..degree).map(|_| candidates.swap_remove(prng.index(candidates.len()))).collect()
        })
        .collect()
}

impl CachePlan {
    fn lay(&self) -> Laid {
        let mut laid = Laid::default();
        laid.push(Kind::Magic, MAGIC);
        laid.u32(Kind::Version, 1);
        laid.u32(Kind::SnapshotCrc, self.snapshot_crc);
        laid.u64(Kind::Sequence, self.sequence);
        laid.u64(Kind::Count, self.count);
        laid.u64(Kind::Entry, self.entry);
        laid.u64(Kind::Rng, self.rng);
        for layers in &self.nodes {
            laid.u8(Kind::Levels, layers.len() as u8);
            for neighbours in layers {
                laid.u32(Kind::Degree, neighbours.len() as u32);
                for &neighbour in neighbours {
                    laid.u32(Kind::Neighbour, neighbour);
                }
            }
        }
        laid
    }

    fn numbers(&self, starts_lent: u64, fill: u64) -> Vec<u64> {
        let mut numbers = self.config.numbers().to_vec();
        numbers.extend([u64::from(self.snapshot_crc), self.sequence, self.count, starts_lent, fill]);
        numbers
    }
}

pub fn read_cache_request(prng: &mut Prng) -> Vec<u8> {
    let mut plan = good(prng);
    let bytes =
        if prng.permille(700) { damage::damaged(prng, &mut plan) } else { with_crc(&plan.lay().bytes) };
    let most = plan.count.min(4000);
    let starts_lent = if prng.permille(60) { prng.below(most.min(40) + 1) } else { most + prng.below(3) };
    request::body(READ_CACHE, &plan.numbers(starts_lent, values::table_fill(prng)), &[&bytes])
}
