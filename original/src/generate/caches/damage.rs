//! One thing wrong with a cache.
use super::CachePlan;
use crate::generate::{
    plan::{Kind, Laid, repair_crc, with_crc},
    prng::Prng,
    values,
};
use model::{
    cache::{HEADER, NO_ENTRY},
    config::rng_state,
};

/// What a damage is done to: the plan, a field or the body before the CRC is put on, or the bytes.
#[derive(Clone, Copy)]
enum Damage {
    Plan(fn(&mut Prng, &mut CachePlan)),
    Field(Kind),
    Body(fn(&mut Prng, &mut Laid)),
    Bytes(fn(&mut Prng, &mut Vec<u8>)),
}

use Damage::{Body, Bytes, Field, Plan};

/// Each as likely as the others.
const DAMAGES: &[Damage] = &[
    Plan(lower_entry),
    Plan(no_entry),
    Plan(missing_level),
    Plan(repeat_neighbour),
    Plan(too_many_neighbours),
    Plan(count_without_bytes),
    Plan(spoil_settings),
    Field(Kind::Magic),
    Field(Kind::Version),
    Field(Kind::Count),
    Field(Kind::Entry),
    Field(Kind::Rng),
    Field(Kind::Levels),
    Field(Kind::Degree),
    Field(Kind::Neighbour),
    Body(cut_nodes),
    Body(extra_bytes),
    Bytes(spoil_bytes),
    Bytes(spoil_crc),
];

/// The damaged cache; the caller's numbers are the plan's afterwards.
pub fn damaged(prng: &mut Prng, plan: &mut CachePlan) -> Vec<u8> {
    let damage = prng.pick(DAMAGES);
    if let Plan(damage) = damage {
        damage(prng, plan);
    }
    let mut laid = plan.lay();
    match damage {
        Field(kind) => edit(prng, &mut laid, kind),
        Body(damage) => damage(prng, &mut laid),
        _ => {}
    }
    let mut bytes = with_crc(&laid.bytes);
    if let Bytes(damage) = damage {
        damage(prng, &mut bytes);
    }
    bytes
}

pub fn edit(prng: &mut Prng, laid: &mut Laid, kind: Kind) {
    let places = laid.places(kind);
    if !places.is_empty() {
        let field = prng.pick(&places);
        let value = if prng.permille(300) { prng.below(8) } else { values::edited(prng, laid.value(field)) };
        laid.set(field, value);
    }
}

fn lower_entry(prng: &mut Prng, plan: &mut CachePlan) {
    if !plan.nodes.is_empty() {
        plan.entry = prng.below(plan.nodes.len() as u64);
    }
}

/// A node loses its upper levels: edges to it hang in the air.
fn missing_level(prng: &mut Prng, plan: &mut CachePlan) {
    let high: Vec<usize> = (0..plan.nodes.len()).filter(|&node| plan.nodes[node].len() > 1).collect();
    if !high.is_empty() {
        let node = prng.pick(&high);
        plan.nodes[node].truncate(1);
    }
}

fn repeat_neighbour(prng: &mut Prng, plan: &mut CachePlan) {
    for layers in &mut plan.nodes {
        for neighbours in layers {
            if let Some(&first) = neighbours.first() {
                neighbours.push(first);
                if prng.permille(700) {
                    return;
                }
            }
        }
    }
}

fn too_many_neighbours(prng: &mut Prng, plan: &mut CachePlan) {
    if plan.nodes.is_empty() {
        return;
    }
    let node = prng.index(plan.nodes.len());
    let level = prng.index(plan.nodes[node].len());
    let most = if level == 0 { 2 * plan.config.m } else { plan.config.m };
    let extra = prng.between(0, 1);
    plan.nodes[node][level] = (0..(most + extra) as u32).map(|number| number + 1 + node as u32).collect();
}

fn spoil_bytes(prng: &mut Prng, bytes: &mut Vec<u8>) {
    match prng.below(4) {
        0 => bytes.truncate(prng.index(bytes.len())),
        1 => bytes.truncate(prng.index(52)),
        2 => {
            let place = prng.index(bytes.len());
            bytes[place] ^= 1 << prng.below(8);
        }
        _ => {
            let place = prng.index(bytes.len());
            bytes[place] = prng.next() as u8;
            repair_crc(bytes);
        }
    }
}

fn spoil_settings(prng: &mut Prng, plan: &mut CachePlan) {
    let config = &mut plan.config;
    match prng.below(3) {
        0 => config.d = prng.pick(&[0, 4097, u64::MAX]),
        1 => config.m = prng.pick(&[0, 1, 65, u64::MAX]),
        _ => config.ef = prng.pick(&[0, config.m - 1, 4097, u64::MAX]),
    }
}

fn no_entry(_: &mut Prng, plan: &mut CachePlan) {
    plan.entry = NO_ENTRY;
}

/// A count that the bytes cannot hold, told alike by file and caller.
fn count_without_bytes(prng: &mut Prng, plan: &mut CachePlan) {
    let room = (plan.lay().bytes.len() - HEADER) as u64 / 5;
    plan.count = match prng.below(4) {
        0 => 100_000,
        1 => 100_001,
        2 => room + 1,
        _ => room + prng.below(3),
    };
    plan.entry = if plan.count == 0 { NO_ENTRY } else { prng.below(plan.count) };
    plan.rng = rng_state(plan.config.seed, plan.count);
}

fn cut_nodes(prng: &mut Prng, laid: &mut Laid) {
    laid.cut(prng.index(laid.bytes.len() - HEADER + 1));
}

fn extra_bytes(prng: &mut Prng, laid: &mut Laid) {
    let extra = prng.between(1, 6) as usize;
    laid.bytes.extend(prng.bytes(extra));
}

fn spoil_crc(prng: &mut Prng, bytes: &mut Vec<u8>) {
    let place = bytes.len() - 1 - prng.index(4);
    bytes[place] ^= 1 << prng.below(8);
}
