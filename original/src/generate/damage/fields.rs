//! Damage to the fields of a body or payload; CRCs are put on afterwards.
use crate::generate::{
    plan::{Kind, Laid},
    prng::Prng,
    values,
};

pub fn edit(prng: &mut Prng, laid: &mut Laid, kind: Kind) {
    let places = laid.places(kind);
    if !places.is_empty() {
        let field = prng.pick(&places);
        let value = values::edited(prng, laid.value(field));
        laid.set(field, value);
    }
}

pub fn edit_to(prng: &mut Prng, laid: &mut Laid, kind: Kind, values: &[u64]) {
    let places = laid.places(kind);
    if !places.is_empty() {
        let field = prng.pick(&places);
        let value =
            if prng.permille(700) { prng.pick(values) } else { values::edited(prng, laid.value(field)) };
        laid.set(field, value);
    }
}

pub fn any_field(prng: &mut Prng, laid: &mut Laid) {
    if laid.fields.is_empty() {
        return;
    }
    let field = prng.pick(&laid.fields);
    let value = values::edited(prng, laid.value(field));
    laid.set(field, value);
}

pub fn cut_body(prng: &mut Prng, laid: &mut Laid) {
    let length = laid.bytes.len().max(1);
    let missing = if prng.permille(500) { prng.index(length.min(12)) } else { prng.index(length) };
    laid.cut(missing);
}

pub fn extra_bytes(prng: &mut Prng, laid: &mut Laid) {
    let extra = prng.between(1, 9) as usize;
    laid.bytes.extend(prng.bytes(extra));
}

/// Files of 48 to 60 bytes, the last 4 of them the CRC: the count field of version 2 may be cut.
pub fn shortest_files(prng: &mut Prng, laid: &mut Laid) {
    let length = prng.between(44, 56) as usize;
    laid.cut(laid.bytes.len().saturating_sub(length));
    laid.bytes.resize(length, 0);
}
