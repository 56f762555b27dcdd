//! Neighbours views of good and bad caches.
use super::{damage::edit, good};
use crate::generate::{
    plan::{Kind, with_crc},
    prng::Prng,
};
use model::{
    cache::{Expected, read_cache},
    request::{self, NEIGHBOURS, bytes_of_words64},
};

/// Views of a good cache, and of starts and bytes that were never accepted.
pub fn neighbours_request(prng: &mut Prng) -> Vec<u8> {
    let plan = good(prng);
    let mut laid = plan.lay();
    let nodes = plan.nodes.len() as u64;
    let expected = Expected {
        config: plan.config,
        snapshot_crc: plan.snapshot_crc,
        sequence: plan.sequence,
        count: nodes,
    };
    let mut starts = read_cache(&expected, &with_crc(&laid.bytes), nodes).unwrap().starts;
    let mut count = nodes;
    let mut node = prng.below(nodes + 1);
    let height = plan.nodes.get(node as usize).map_or(1, Vec::len) as u64;
    let mut level = prng.below(height);
    match prng.below(12) {
        0 => count = prng.pick(&[0, nodes + 1, u64::MAX]),
        1 => node = prng.pick(&[nodes, u64::MAX]),
        2 => level = prng.pick(&[height, 33, 255, u64::MAX]),
        3 => edit(prng, &mut laid, Kind::Levels),
        4 | 5 => edit(prng, &mut laid, Kind::Degree),
        6 => laid.cut(prng.index(laid.bytes.len() + 1)),
        7 if !starts.is_empty() => {
            let place = prng.index(starts.len());
            let length = laid.bytes.len() as u64;
            starts[place] = prng.pick(&[0, length - 1, length, length + 3, length + 4, u64::MAX, 1 << 32]);
        }
        8 => starts.truncate(prng.index(starts.len() + 1)),
        _ => {}
    }
    let bytes = if prng.permille(800) { with_crc(&laid.bytes) } else { laid.bytes };
    request::body(NEIGHBOURS, &[count, node, level], &[&bytes_of_words64(&starts), &bytes])
}
