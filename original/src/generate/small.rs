//! The calls on a few bytes or numbers, and requests that are none.
use super::{prng::Prng, values};
use model::request::{self, *};

pub fn small_request(prng: &mut Prng) -> Vec<u8> {
    match prng.below(12) {
        0 | 1 => bytes_request(prng, &[CRC, C_CRC]),
        2 | 3 => text_request(prng),
        4 => request::body(DEFAULTS, &[edge(prng)], &[]),
        5 | 6 => validate_request(prng),
        7 | 8 => coordinates_request(prng),
        9 => request::body(RNG_STATE, &[prng.next(), edge(prng)], &[]),
        10 => super::encoders::delete_frame_request(prng),
        _ => bad_request(prng),
    }
}

fn bytes_request(prng: &mut Prng, calls: &[u8]) -> Vec<u8> {
    let length = match prng.below(10) {
        0 => prng.between(250, 600),
        1 => prng.between(14, 18),
        _ => prng.below(40),
    };
    request::body(prng.pick(calls), &[], &[&prng.bytes(length as usize)])
}

fn text_request(prng: &mut Prng) -> Vec<u8> {
    let mut text = match prng.below(3) {
        0 => values::bad_text(prng),
        _ => values::caption(prng),
    };
    if prng.permille(300) && !text.is_empty() {
        let place = prng.index(text.len());
        text[place] = prng.next() as u8;
    }
    if prng.permille(200) {
        text.truncate(prng.index(text.len() + 1));
    }
    request::body(prng.pick(&[UTF8, UTF8, C_UTF8]), &[], &[&text])
}

fn edge(prng: &mut Prng) -> u64 {
    prng.pick(&[
        0,
        1,
        2,
        63,
        64,
        65,
        4095,
        4096,
        4097,
        100_000,
        u64::from(u32::MAX),
        1 << 32,
        (1 << 32) + 1,
        u64::MAX,
    ])
}

fn validate_request(prng: &mut Prng) -> Vec<u8> {
    let mut numbers = values::config(prng).numbers();
    if prng.permille(600) {
        let place = prng.index(3);
        numbers[place] = edge(prng);
    }
    if prng.permille(300) {
        numbers[2] = numbers[1].wrapping_sub(prng.below(2));
    }
    request::body(VALIDATE, &numbers, &[])
}

fn coordinates_request(prng: &mut Prng) -> Vec<u8> {
    let mut config = values::config(prng);
    config.metric = 0;
    let mut bytes = values::coordinates(prng, &config);
    if prng.permille(300) {
        let place = 4 * prng.index(bytes.len() / 4);
        bytes[place..place + 4]
            .copy_from_slice(&prng.pick(&[0x7F80_0000u32, 0xFF80_0000, 0x7FC0_0001]).to_le_bytes());
    }
    if prng.permille(200) {
        for coordinate in bytes.chunks_mut(4) {
            coordinate.copy_from_slice(&prng.pick(&[0u32, 0x8000_0000]).to_le_bytes());
        }
    }
    request::body(COORDINATES, &[prng.below(3)], &[&bytes])
}

/// Wrong in the ways that docs/QUESTIONS.md names.
fn bad_request(prng: &mut Prng) -> Vec<u8> {
    let mut body = match prng.below(5) {
        0 => request::body(prng.pick(&[0, 24, 255]), &[], &[]),
        1 => request::body(VALIDATE, &[1, 16, 200, 42, prng.pick(&[3, 1 << 32, u64::MAX])], &[]),
        2 => request::body(LOOKUP, &[1, 7], &[&[0; 15]]),
        3 => request::body(COORDINATES, &[0], &[&[0; 6]]),
        _ => request::body(CRC, &[], &[b"cut or longer"]),
    };
    match prng.below(4) {
        0 => body.truncate(prng.index(body.len())),
        1 => body.push(0),
        2 => {
            let place = prng.index(2);
            body[place] = body[place].wrapping_add(1);
        }
        _ => {}
    }
    body
}
