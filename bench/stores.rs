// stores FOLDER: what the original's `inspect` recovers from FOLDER, as the listing prints it. bench/stores runs it beside `lambspool list`.
include!("../target/bench/vecnook.rs");

use std::{
    fs::File,
    io::{BufWriter, Write, stdout},
    path::PathBuf,
};

fn main() {
    let folder = PathBuf::from(std::env::args().nth(1).expect("a folder"));
    let mut log = File::open(folder.join("wal.bin")).expect("a log");
    let length = log.metadata().expect("its length").len();
    let r = storage::inspect(&folder, &mut log).expect("an accepted store");
    let active = r.records.iter().filter(|record| !record.deleted).count();
    let mut out = BufWriter::new(stdout().lock());
    let keep = length - r.truncated_bytes;
    write!(out, "seq {} records {} active {active} replayed {} skipped {} ", r.sequence, r.records.len(), r.replayed, r.skipped).unwrap();
    writeln!(out, "keep {keep} tail {}", r.truncated_bytes).unwrap();
    for (node, record) in r.records.iter().enumerate() {
        match record.deleted {
            true => writeln!(out, "{node} {} gone", record.id).unwrap(),
            false => writeln!(out, "{node} {} live {}", record.id, record.metadata).unwrap(),
        }
    }
    out.flush().unwrap();
    std::process::exit(0); // what was recovered is not taken apart again, as ours is not
}
