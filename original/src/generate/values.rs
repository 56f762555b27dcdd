//! Good values of every field, chosen where mistakes are likely.
use super::prng::Prng;
use model::config::Config;

/// Few IDs, so that they come again and again, and the ends of the range.
pub fn id(prng: &mut Prng) -> u64 {
    match prng.below(20) {
        0 => u64::MAX,
        1 => 1 << 63,
        2 => prng.next(),
        _ => prng.below(6),
    }
}

pub fn config(prng: &mut Prng) -> Config {
    let d = match prng.below(200) {
        0..90 => 1,
        90..150 => prng.between(2, 4),
        150..190 => prng.between(5, 12),
        190..198 => prng.between(13, 40),
        198 => 1024,
        _ => 4096,
    };
    let m = match prng.below(4) {
        0 => 2,
        1 => 64,
        _ => prng.between(2, 64),
    };
    let ef = match prng.below(4) {
        0 => m,
        1 => 4096,
        _ => prng.between(m, 4096),
    };
    let seed = match prng.below(4) {
        0 => 42,
        1 => u64::MAX,
        _ => prng.next(),
    };
    Config { d, m, ef, seed, metric: prng.below(3) }
}

pub fn coordinate_bits(prng: &mut Prng) -> u32 {
    const CHOSEN: [u32; 8] = [
        0,
        0x8000_0000, // -0
        0x3F80_0000, // 1
        0xBF80_0000,
        0x0000_0001, // the least subnormal
        0x807F_FFFF, // the largest subnormal, negative
        0x7F7F_FFFF, // the largest finite
        0xFF7F_FFFF,
    ];
    if prng.permille(600) {
        return prng.pick(&CHOSEN);
    }
    let bits = prng.next() as u32;
    // Clearing one exponent bit makes any bits finite.
    if bits & 0x7F80_0000 == 0x7F80_0000 { bits & !0x0080_0000 } else { bits }
}

/// Coordinate bytes that the metric accepts.
pub fn coordinates(prng: &mut Prng, config: &Config) -> Vec<u8> {
    let mut bits: Vec<u32> = (0..config.d).map(|_| coordinate_bits(prng)).collect();
    if bits.iter().all(|bits| bits & 0x7FFF_FFFF == 0) && config.metric == 1 {
        let place = prng.index(bits.len());
        bits[place] = prng.pick(&[1, 0x8000_0001, 0x3F80_0000]);
    }
    model::request::bytes_of_words32(&bits)
}

const CHARACTERS: [char; 24] = [
    'a',
    'H',
    'o',
    ' ',
    '~',
    '\0',
    '\n',
    '\\',
    '\x7F', // one byte
    '\u{80}',
    'é',
    'ß',
    '\u{7FF}', // two
    '\u{800}',
    '€',
    '漢',
    '\u{D7FF}',
    '\u{E000}',
    '\u{FFFD}',
    '\u{FFFF}', // three
    '\u{10000}',
    '😀',
    '\u{FFFFF}',
    '\u{10FFFF}', // four
];

pub fn caption(prng: &mut Prng) -> Vec<u8> {
    match prng.below(1000) {
        0..300 => Vec::new(),
        300..995 => {
            let length = prng.between(1, 10);
            text(prng, length)
        }
        995..998 => {
            let length = prng.between(20, 300);
            text(prng, length)
        }
        _ => long_text(prng, 16_384),
    }
}

fn text(prng: &mut Prng, characters: u64) -> Vec<u8> {
    (0..characters).map(|_| prng.pick(&CHARACTERS)).collect::<String>().into_bytes()
}

/// Text of exactly so many bytes.
pub fn long_text(prng: &mut Prng, length: usize) -> Vec<u8> {
    let mut bytes = text(prng, 40);
    while bytes.len() < length {
        bytes.extend_from_within(..bytes.len().min(length - bytes.len()));
    }
    // The last copy may have cut a character.
    for byte in bytes.iter_mut().rev().take(40 * 4) {
        *byte = b'z';
    }
    // And so may its beginning where the plain end starts.
    let end = bytes.len().saturating_sub(40 * 4);
    let good = std::str::from_utf8(&bytes[..end]).map_or_else(|error| error.valid_up_to(), str::len);
    bytes[good..end].fill(b'y');
    bytes
}

/// Bytes that are not UTF-8, each wrong in its own way.
pub fn bad_text(prng: &mut Prng) -> Vec<u8> {
    const BAD: [&[u8]; 22] = [
        b"\x80",
        b"\xBF",
        b"\xC0\x80",
        b"\xC1\xBF",
        b"\xC2",
        b"\xC2\x7F",
        b"\xDF\xC0",
        b"\xE0\x9F\x80",
        b"\xE0\xA0",
        b"\xE1\x80\x7F",
        b"\xED\xA0\x80",
        b"\xEF\xBF",
        b"\xF0\x8F\xBF\xBF",
        b"\xF0\x90\x80",
        b"\xF1\x80\x80\xC0",
        b"\xF4\x90\x80\x80",
        b"\xF5\x80\x80\x80",
        b"\xF8\x88\x80\x80\x80",
        b"\xFC",
        b"\xFE",
        b"\xFF",
        b"\xE2\x28\xA1",
    ];
    let characters = prng.below(6);
    let mut bytes = text(prng, characters);
    bytes.extend(prng.pick(&BAD));
    if prng.permille(500) {
        let characters = prng.below(4);
        bytes.extend(text(prng, characters));
    }
    bytes
}

/// What every word of the lent tables holds before a call; an active entry holds its low half.
const FILLS: [u64; 6] = [
    0,
    u64::MAX,
    // Twice the word, a live row: few IDs, which files have too, without a caption; a place where a
    // cache's first node stands; a caption of two bytes.
    3,
    7,
    48,
    2 << 47 | 61,
];

pub fn table_fill(prng: &mut Prng) -> u64 {
    match prng.below(8) {
        0 => prng.below(6),
        1 => prng.next(),
        _ => prng.pick(&FILLS),
    }
}

/// The fills in turn, for a request that no number is drawn for.
pub fn table_fill_of(place: usize) -> u64 {
    FILLS[place % FILLS.len()]
}

/// A value for an edited field: the bounds of document 01, the value's neighbours, anything.
pub fn edited(prng: &mut Prng, value: u64) -> u64 {
    const BOUNDS: [u64; 26] = [
        0,
        1,
        2,
        3,
        4,
        16,
        17,
        33,
        34,
        64,
        65,
        1024,
        1025,
        4096,
        4097,
        16_384,
        16_385,
        99_999,
        100_000,
        100_001,
        8_388_608,
        8_388_609,
        1 << 31,
        u32::MAX as u64,
        u64::MAX - 1,
        u64::MAX,
    ];
    match prng.below(8) {
        0..3 => prng.pick(&BOUNDS),
        3 => value.wrapping_add(1),
        4 => value.wrapping_sub(1),
        5 => value ^ 1 << prng.below(64),
        6 => value.wrapping_add(prng.below(40)),
        _ => prng.next(),
    }
}
