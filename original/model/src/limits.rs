//! Document 01's bounds, each spelled once.
use std::ops::RangeInclusive;

pub const DIMENSIONS: RangeInclusive<u64> = 1..=4096;
pub const M: RangeInclusive<u64> = 2..=64;
pub const MAX_EF: u64 = 4096;
pub const MAX_CAPTION: u64 = 16_384;
pub const MAX_RECORDS: u64 = 100_000;
pub const SNAPSHOT_BYTES: RangeInclusive<u64> = 52..=268_435_456;
pub const CACHE_BYTES: RangeInclusive<u64> = 52..=134_217_728;
pub const PAYLOAD_BYTES: RangeInclusive<u64> = 17..=8_388_608;
pub const BATCH_OPERATIONS: RangeInclusive<u64> = 1..=1024;
pub const LEVELS: RangeInclusive<u8> = 1..=33;
pub const MAX_LOG: u64 = 1_073_741_824;
pub const MAX_LISTED_FILE: u64 = 65_536;
pub const LISTED_ROWS: u64 = 4096;

/// A version 2 header and the CRC: what a snapshot has besides its records.
pub const SNAPSHOT_FRAME: u64 = 56;
/// ID, flag and caption length: what a record has besides coordinates and caption.
pub const RECORD_FRAME: u64 = 13;
