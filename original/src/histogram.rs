//! How often each call gave each answer.
use model::{
    reply::{LogCounts, Reply, WriteRefusal},
    request::call_name,
};
use std::{collections::BTreeMap, fmt::Write};

#[derive(Default)]
pub struct Histogram {
    counts: BTreeMap<(u8, String), u64>,
    accepted_pairs: u64,
    with_both: u64,
    largest_answer: usize,
}

impl Histogram {
    pub fn add(&mut self, call: u8, reply: &Reply) {
        self.largest_answer = self.largest_answer.max(reply.text().len());
        *self.counts.entry((call, label(reply))).or_default() += 1;
        if let Reply::Read { outcome: Ok(accepted), .. } = reply
            && let Some(LogCounts { replayed, skipped, .. }) = accepted.log
        {
            self.accepted_pairs += 1;
            self.with_both += u64::from(replayed > 0 && skipped > 0);
        }
    }

    pub fn count(&self, call: u8, label: &str) -> u64 {
        self.counts.get(&(call, label.to_string())).copied().unwrap_or(0)
    }

    pub fn table(&self) -> String {
        let mut text = String::new();
        let mut calls: Vec<u8> = self.counts.keys().map(|(call, _)| *call).collect();
        calls.dedup();
        for call in calls {
            let rows: Vec<_> = self.counts.iter().filter(|((of, _), _)| *of == call).collect();
            let total: u64 = rows.iter().map(|(_, count)| **count).sum();
            writeln!(text, "{call} {}: {total}", call_name(call)).unwrap();
            let cells: Vec<String> =
                rows.iter().map(|((_, label), count)| format!("{label}: {count}")).collect();
            writeln!(text, "    {}", cells.join(", ")).unwrap();
        }
        if self.accepted_pairs > 0 {
            writeln!(
                text,
                "pairs accepted {}, both replayed and skipped in {}",
                self.accepted_pairs, self.with_both
            )
            .unwrap();
        }
        writeln!(text, "largest answer {} bytes", self.largest_answer).unwrap();
        text
    }
}

/// The answer without what varies from case to case; numbers have two digits so that they sort.
pub fn label(reply: &Reply) -> String {
    use model::recover::Refusal;
    let refusal = |refusal: &Refusal| match refusal {
        Refusal::Snapshot(number) => format!("snapshot {number:02}"),
        Refusal::Log { number, .. } => format!("log {number:02}"),
    };
    match reply {
        Reply::Read { outcome: Err(refused), .. }
        | Reply::Written { outcome: Err(WriteRefusal::Recovery(refused)), .. } => refusal(refused),
        Reply::Read { .. } | Reply::Cache { outcome: Ok(_), .. } => "accepted".into(),
        Reply::Listing(text) => match String::from_utf8_lossy(text) {
            text if text.starts_with("refused ") => text[8..].split(" at").next().unwrap().trim().to_string(),
            _ => "accepted".into(),
        },
        Reply::Encoded { outcome: Ok(_), .. } | Reply::Written { outcome: Ok(_), .. } => "written".into(),
        Reply::Validated(Err(number))
        | Reply::Encoded { outcome: Err(number), .. }
        | Reply::Written { outcome: Err(WriteRefusal::Writer(number)), .. }
        | Reply::Lookup(Err(number))
        | Reply::Cache { outcome: Err(number), .. } => format!("refused {number:02}"),
        Reply::View { number, .. } => format!("number {number:02}"),
        Reply::Lookup(Ok(Some(_))) => "node".into(),
        Reply::Crc(_) => "crc".into(),
        Reply::Rng(_) => "rng".into(),
        Reply::Settings(_) => "settings".into(),
        other => other.head(),
    }
}
