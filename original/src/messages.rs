//! The original's messages as document 01's numbers: the one table.
use crate::error::Error;

/// Where the original was when it refused: two messages mean another number in each.
#[derive(Clone, Copy, PartialEq, Eq)]
pub enum Place {
    Snapshot,
    Log,
    Cache,
    /// Settings, coordinates and records that a caller hands in.
    Input,
}

use Place::{Cache, Input, Log, Snapshot};

/// A message begins with the text and comes from one of the places.
const TABLE: [(&str, &[Place], u32); 45] = [
    ("invalid encoded file length", &[Snapshot, Cache], 1),
    ("unknown snapshot magic", &[Snapshot], 2),
    ("unknown snapshot version", &[Snapshot], 3),
    ("truncated field", &[Snapshot, Log, Cache], 4),
    ("unknown distance metric", &[Snapshot], 5),
    ("invalid input: dimensions", &[Snapshot], 6),
    ("invalid input: M ", &[Snapshot], 7),
    ("invalid input: efConstruction", &[Snapshot], 8),
    ("dimensions", &[Input], 6),
    ("M ", &[Input], 7),
    ("efConstruction", &[Input], 8),
    ("invalid snapshot record count", &[Snapshot], 9),
    ("invalid tombstone flag", &[Snapshot], 10),
    ("truncated vector", &[Snapshot], 11),
    ("non-finite coordinate", &[Snapshot], 12),
    ("non-finite vector coordinate", &[Log], 12),
    ("coordinates must be finite", &[Input], 12),
    ("invalid input: cosine", &[Snapshot, Log], 13),
    ("cosine", &[Input], 13),
    ("metadata length", &[Snapshot, Log], 14),
    ("invalid metadata UTF-8", &[Snapshot, Log], 15),
    ("unexpected trailing fields", &[Snapshot, Log, Cache], 16),
    ("file checksum", &[Snapshot, Cache], 17),
    ("duplicate active ID", &[Snapshot], 18),
    ("WAL length checksum", &[Log], 21),
    ("invalid WAL frame length", &[Log], 22),
    ("WAL checksum", &[Log], 23),
    ("WAL sequence", &[Log], 24),
    ("invalid batch operation count", &[Log], 25),
    ("unknown WAL operation", &[Log], 26),
    ("WAL gap", &[Log], 27),
    ("recovered records exceed", &[Log], 28),
    ("WAL deletes an inactive", &[Log], 29),
    ("encoded file exceeds", &[Input], 34),
    ("stale or unsupported", &[Cache], 40),
    ("invalid graph node count", &[Cache], 41),
    ("invalid graph entry", &[Cache], 42),
    ("missing graph entry", &[Cache], 43),
    ("invalid graph RNG", &[Cache], 44),
    ("graph counts exceed", &[Cache], 45),
    ("invalid graph levels", &[Cache], 46),
    ("graph degree", &[Cache], 47),
    ("invalid graph neighbor", &[Cache], 48),
    ("graph edge", &[Cache], 49),
    ("graph entry below", &[Cache], 50),
];

/// The number, or the message itself if it has none: that is a finding.
pub fn number(error: &Error, place: Place) -> Result<u32, String> {
    let message = match error {
        Error::Corrupt(message) | Error::InvalidInput(message) => message,
        other => return Err(other.to_string()),
    };
    TABLE
        .iter()
        .find(|(text, places, _)| message.starts_with(text) && places.contains(&place))
        .map(|(_, _, number)| *number)
        .ok_or_else(|| message.clone())
}

/// The byte that the original names in 21, 22 and 23.
pub fn named_byte(error: &Error) -> Option<u64> {
    let Error::Corrupt(message) = error else { return None };
    message.split_once(" at byte ")?.1.parse().ok()
}
