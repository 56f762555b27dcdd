//! The atoms of an answer: SET, BYTES, WORDS.
use crate::{config::Config, crc::crc32, request::bytes_of_words64};
use std::fmt::Write;

const MAX_HEX: usize = 4096;
const MAX_WORDS: usize = 64;

pub fn set(config: &Config) -> String {
    let Config { d, m, ef, seed, metric } = config;
    format!("d {d} m {m} ef {ef} seed {seed} metric {metric}")
}

pub fn bytes(bytes: &[u8]) -> String {
    let length = bytes.len();
    if length > MAX_HEX {
        return format!("{length}#{}", crc32(bytes));
    }
    let mut text = format!("{length}:");
    for byte in bytes {
        write!(text, "{byte:02x}").unwrap();
    }
    text
}

pub fn words(words: &[u64]) -> String {
    let count = words.len();
    if count > MAX_WORDS {
        return format!("{count}#{}", crc32(&bytes_of_words64(words)));
    }
    let shown = count - words.iter().rev().take_while(|&&word| word == 0).count();
    format!("{count}:{}", joined(&words[..shown]))
}

pub fn joined(words: &[u64]) -> String {
    let words: Vec<String> = words.iter().map(u64::to_string).collect();
    words.join(",")
}
