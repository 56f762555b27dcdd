//! Requests to the encoders: good ones, then one thing wrong.
use super::{pairs::output_length, prng::Prng, values};
use model::{
    config::Config,
    encode::operation_word,
    request::{self, C_DELETE_FRAME, ENCODE_BATCH, ENCODE_FRAME, bytes_of_words64},
};

struct Draft {
    config: Config,
    sequence: u64,
    words: Vec<u64>,
    coordinates: Vec<u8>,
    captions: Vec<u8>,
}

pub fn encode_request(prng: &mut Prng) -> Vec<u8> {
    let is_batch = prng.permille(600);
    let mut draft = good(prng, is_batch);
    if prng.permille(550) {
        damage(prng, &mut draft);
    }
    let needed = needed(&draft, is_batch);
    let length = output_length(prng, needed).min(65_536);
    let mut numbers = draft.config.numbers().to_vec();
    numbers.extend([draft.sequence, length, prng.below(256)]);
    let call = if is_batch { ENCODE_BATCH } else { ENCODE_FRAME };
    request::body(call, &numbers, &[&bytes_of_words64(&draft.words), &draft.coordinates, &draft.captions])
}

fn good(prng: &mut Prng, is_batch: bool) -> Draft {
    let mut draft = Draft {
        config: values::config(prng),
        sequence: prng.pick(&[1, 2, 7, 1 << 40, u64::MAX]),
        words: Vec::new(),
        coordinates: Vec::new(),
        captions: Vec::new(),
    };
    if prng.permille(500) {
        let stray = prng.below(5) as usize;
        draft.captions.extend(prng.bytes(stray));
    }
    let operations = match (is_batch, prng.below(30)) {
        (false, _) => 1,
        (true, 0) => many_operations(prng, &mut draft),
        (true, _) => prng.between(1, 5),
    };
    let puts = prng.pick(&[0, 500, 800, 1000]);
    for _ in 0..operations {
        operation(prng, &mut draft, puts);
    }
    if prng.permille(500) {
        let stray = prng.below(5) as usize;
        draft.captions.extend(prng.bytes(stray));
    }
    draft
}

/// The bounds of a batch, small enough for a request.
fn many_operations(prng: &mut Prng, draft: &mut Draft) -> u64 {
    draft.config.d = 1;
    prng.pick(&[1023, 1024, 1024, 1025])
}

fn operation(prng: &mut Prng, draft: &mut Draft, puts: u64) {
    draft.words.push(values::id(prng));
    if !prng.permille(puts) {
        draft.words.push(0);
        return;
    }
    let caption = if draft.words.len() > 40 { Vec::new() } else { values::caption(prng) };
    draft.words.push(operation_word(caption.len() as u64, draft.captions.len() as u64));
    draft.captions.extend(caption);
    draft.coordinates.extend(values::coordinates(prng, &draft.config));
}

fn needed(draft: &Draft, is_batch: bool) -> u64 {
    let around = if is_batch { 12 + 13 } else { 12 + 9 };
    let tag = u64::from(is_batch);
    let operations = draft.words.chunks_exact(2).map(|pair| match pair[1] >> 63 {
        1 => tag + 12 + 4 * draft.config.d.min(4096) + (pair[1] >> 48 & 0x7FFF),
        _ => tag + 8,
    });
    around + operations.sum::<u64>()
}

fn damage(prng: &mut Prng, draft: &mut Draft) {
    match prng.below(16) {
        0 => draft.config.d = prng.pick(&[0, 4097, u64::MAX]),
        1 => draft.config.m = prng.pick(&[0, 1, 65, u64::MAX]),
        2 => draft.config.ef = prng.pick(&[0, draft.config.m - 1, 4097, u64::MAX]),
        3 => draft.sequence = 0,
        4 => draft.words.truncate(prng.index(2)),
        5 => draft.words.push(prng.next()),
        6 => draft.words.extend([values::id(prng), 0]),
        7 => draft.coordinates.extend(1f32.to_le_bytes()),
        8 => draft.coordinates.truncate(draft.coordinates.len().saturating_sub(4)),
        9 => long_caption(prng, draft),
        10 => caption_outside(prng, draft),
        11 => spoil_coordinate(prng, draft),
        12 => zero_coordinates(draft),
        13 => bad_caption(prng, draft),
        14 => packed_delete(prng, draft),
        // Rarer than the others: each costs the original a payload of 8 MiB.
        _ if prng.permille(400) => too_large(prng, draft),
        _ => {}
    }
}

/// Places of the packed words that put.
fn puts(draft: &Draft) -> Vec<usize> {
    (1..draft.words.len()).step_by(2).filter(|&place| draft.words[place] >> 63 == 1).collect()
}

fn long_caption(prng: &mut Prng, draft: &mut Draft) {
    if let Some(&place) = puts(draft).first() {
        let length = prng.pick(&[16_384, 16_385, 32_767]);
        draft.captions.resize(length as usize, b'l');
        draft.words[place] = operation_word(length, 0);
    }
}

fn caption_outside(prng: &mut Prng, draft: &mut Draft) {
    let puts = puts(draft);
    if puts.is_empty() {
        return;
    }
    let place = prng.pick(&puts);
    let end = draft.captions.len() as u64;
    let (length, offset) = match prng.below(5) {
        0 => (0, end),
        1 => (0, end + 1),
        2 => (1, end),
        3 => (prng.below(9), (1 << 48) - 1),
        _ => (prng.below(9), end.saturating_sub(prng.below(9))),
    };
    draft.words[place] = operation_word(length, offset);
}

fn spoil_coordinate(prng: &mut Prng, draft: &mut Draft) {
    if !draft.coordinates.is_empty() {
        let place = 4 * prng.index(draft.coordinates.len() / 4);
        let bits: u32 = prng.pick(&[0x7F80_0000, 0xFF80_0000, 0x7FC0_0000, 0xFF80_0001]);
        draft.coordinates[place..place + 4].copy_from_slice(&bits.to_le_bytes());
    }
}

fn zero_coordinates(draft: &mut Draft) {
    draft.config.metric = 1;
    for coordinate in draft.coordinates.chunks_mut(4) {
        coordinate.copy_from_slice(&[0, 0, 0, 0x80]);
    }
}

fn bad_caption(prng: &mut Prng, draft: &mut Draft) {
    let puts = puts(draft);
    if !puts.is_empty() {
        let place = prng.pick(&puts);
        let caption = values::bad_text(prng);
        draft.words[place] = operation_word(caption.len() as u64, draft.captions.len() as u64);
        draft.captions.extend(caption);
    }
}

fn packed_delete(prng: &mut Prng, draft: &mut Draft) {
    let deletes: Vec<usize> =
        (1..draft.words.len()).step_by(2).filter(|&place| draft.words[place] == 0).collect();
    if !deletes.is_empty() {
        let place = prng.pick(&deletes);
        draft.words[place] = prng.pick(&[1, 1 << 47, 1 << 48, (1 << 63) - 1]);
    }
}

/// Puts that share one long caption: payloads of 8,388,608 bytes and one more, from a small request.
fn too_large(prng: &mut Prng, draft: &mut Draft) {
    draft.config = Config::new(1);
    draft.captions = vec![b'v'; 16_384];
    // 13 bytes before the operations; a put of d 1 has 17 besides its caption.
    let payload = prng.pick(&[8_388_608, 8_388_609, 8_388_607]);
    let whole = 17 + 16_384;
    let count = (payload - 13) / whole;
    let rest = (payload - 13) % whole;
    draft.words.clear();
    for id in 0..count {
        draft.words.extend([id, operation_word(16_384, 0)]);
    }
    draft.words.extend([count, operation_word(rest - 17, 0)]);
    draft.coordinates = (0..=count).flat_map(|_| 1f32.to_le_bytes()).collect();
}

pub fn delete_frame_request(prng: &mut Prng) -> Vec<u8> {
    let sequence = prng.pick(&[0, 1, 9, u64::MAX]);
    let room = prng.pick(&[0, 1, 28, 29, 30, 40]);
    request::body(C_DELETE_FRAME, &[sequence, values::id(prng), room, prng.below(256)], &[])
}
