//! The generator: request number `index` of a seed, of one kind or mixed.
pub mod boundaries;
mod caches;
mod damage;
mod encoders;
pub mod exhaustive;
mod good;
mod pairs;
pub mod plan;
pub mod prng;
mod small;
mod tables;
mod values;

use prng::Prng;

/// What standard input carries (docs/QUESTIONS.md, Sizes).
pub const MAX_REQUEST: usize = 65_536;

#[derive(Clone, Copy, PartialEq, Eq)]
pub enum Kind {
    Mixed,
    Pairs,
    Recoveries,
    Caches,
    Encoders,
    Tables,
    Small,
}

impl Kind {
    pub fn named(name: &str) -> Option<Self> {
        Some(match name {
            "mixed" => Self::Mixed,
            "pairs" => Self::Pairs,
            "recoveries" => Self::Recoveries,
            "caches" => Self::Caches,
            "encoders" => Self::Encoders,
            "tables" => Self::Tables,
            "small" => Self::Small,
            _ => return None,
        })
    }
}

/// A request's body; the same for the same seed, index and kind.
pub fn request(seed: u64, index: u64, kind: Kind) -> Vec<u8> {
    let mut prng = Prng::for_case(seed, index);
    loop {
        let body = one(&mut prng, kind);
        // Long captions can pile up beyond what a request may have.
        if body.len() <= MAX_REQUEST {
            return body;
        }
    }
}

fn one(prng: &mut Prng, kind: Kind) -> Vec<u8> {
    match kind {
        Kind::Pairs => pairs::recover_request(prng),
        Kind::Recoveries => match prng.below(2) {
            0 => pairs::recover_request(prng),
            _ => pairs::recover_write_request(prng),
        },
        Kind::Caches => caches::read_cache_request(prng),
        Kind::Encoders => encoders::encode_request(prng),
        Kind::Tables => match prng.below(4) {
            0 | 1 => tables::write_request(prng),
            2 => tables::lookup_request(prng),
            _ => tables::view_request(prng),
        },
        Kind::Small => small::small_request(prng),
        Kind::Mixed => match prng.below(100) {
            0..35 => pairs::recover_request(prng),
            35..43 => pairs::read_snapshot_request(prng),
            43..52 => pairs::recover_write_request(prng),
            52..54 => pairs::listing_request(prng),
            54..66 => caches::read_cache_request(prng),
            66..71 => caches::neighbours_request(prng),
            71..81 => encoders::encode_request(prng),
            81..91 => one(prng, Kind::Tables),
            _ => small::small_request(prng),
        },
    }
}
