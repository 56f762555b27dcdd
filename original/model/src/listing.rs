//! The listing's text for two files that could be read.
use crate::{
    limits::MAX_LISTED_FILE,
    recover::Refusal,
    reply::{Accepted, LogCounts, refusal_line},
    rows::Sources,
};

/// The text for the outcome of recovering these sources with 4,096 rows.
pub fn listing(sources: Sources, outcome: &Result<Accepted, Refusal>) -> Vec<u8> {
    if is_refused_file(sources) {
        return b"refused file 35\n".to_vec();
    }
    let accepted = match outcome {
        Ok(accepted) => accepted,
        Err(refusal) => return format!("{}\n", refusal_line(refusal)).into_bytes(),
    };
    let mut text = first_line(accepted).into_bytes();
    for (node, record) in accepted.records.iter().enumerate() {
        if record.deleted {
            text.extend(format!("{node} {} gone\n", record.id).bytes());
        } else {
            text.extend(format!("{node} {} live ", record.id).bytes());
            text.extend(&record.caption);
            text.push(b'\n');
        }
    }
    text
}

pub fn is_refused_file(sources: Sources) -> bool {
    let too_long = |bytes: &[u8]| bytes.len() as u64 > MAX_LISTED_FILE;
    too_long(sources.snapshot) || too_long(sources.log)
}

fn first_line(accepted: &Accepted) -> String {
    let Some(LogCounts { replayed, skipped, keep, tail }) = &accepted.log else {
        unreachable!("the listing recovers with a log");
    };
    format!(
        "seq {} records {} active {} replayed {replayed} skipped {skipped} keep {keep} tail {tail}\n",
        accepted.sequence,
        accepted.records.len(),
        accepted.active
    )
}
