//! Requests that hand in a snapshot and perhaps a log.
use super::{
    damage::{PairBytes, damaged, undamaged},
    good,
    prng::Prng,
    values::table_fill,
};
use model::{
    answer::write_recovered,
    limits::{MAX_RECORDS, SNAPSHOT_FRAME},
    recover::recover,
    request::{self, LISTING, READ_SNAPSHOT, RECOVER, RECOVER_COMPACT, RECOVER_WRITE},
    rows::Sources,
};

impl PairBytes {
    pub fn sources(&self) -> Sources<'_> {
        Sources { snapshot: &self.snapshot, log: &self.log }
    }

    /// Rows that recovery asks for, as far as it comes.
    fn rows_wanted(&self) -> u64 {
        recover(self.sources(), MAX_RECORDS).map_or(12, |state| state.rows.len() as u64)
    }
}

pub fn pair(prng: &mut Prng) -> PairBytes {
    let plan = good::pair(prng);
    match prng.below(100) {
        0..38 => undamaged(&plan),
        38..45 => rewritten_at_a_cut(prng, undamaged(&plan)),
        _ => damaged(prng, plan),
    }
}

/// The snapshot of the state after some frame, beside the whole log: what demand 3 speaks of.
fn rewritten_at_a_cut(prng: &mut Prng, mut pair: PairBytes) -> PairBytes {
    let cut = prng.index(pair.log.len() + 1);
    let sources = Sources { snapshot: &pair.snapshot, log: &pair.log[..cut] };
    if let Ok(state) = recover(sources, MAX_RECORDS) {
        let mut output = vec![0; (state.size + SNAPSHOT_FRAME) as usize];
        let compacted = prng.permille(300);
        if let Ok(length) = write_recovered(&state, sources, compacted, &mut output) {
            output.truncate(length as usize);
            pair.snapshot = output;
        }
    }
    pair
}

/// Row words and active entries: mostly enough, in every way of being enough; sometimes too few.
fn lent(prng: &mut Prng, wanted: u64) -> (u64, u64) {
    match prng.below(40) {
        0 => (2 * prng.below(wanted + 1), wanted + prng.below(3)),
        1 => (2 * wanted + prng.below(3), prng.below(wanted + 1)),
        2 => (2 * wanted, wanted),
        3 => (2 * wanted + 1, wanted),
        4 => (2 * wanted, wanted + 2),
        5 => (2 * wanted + 70, wanted + 70),
        6 => (2 * wanted.saturating_sub(1) + 1, wanted),
        _ => (2 * wanted + prng.below(5), wanted + prng.below(3)),
    }
}

pub fn recover_request(prng: &mut Prng) -> Vec<u8> {
    let pair = pair(prng);
    let (row_words, entries) = lent(prng, pair.rows_wanted());
    request::body(RECOVER, &[row_words, entries, table_fill(prng)], &[&pair.snapshot, &pair.log])
}

pub fn read_snapshot_request(prng: &mut Prng) -> Vec<u8> {
    let mut pair = pair(prng);
    pair.log.clear();
    let (row_words, entries) = lent(prng, pair.rows_wanted());
    request::body(READ_SNAPSHOT, &[row_words, entries, table_fill(prng)], &[&pair.snapshot])
}

pub fn listing_request(prng: &mut Prng) -> Vec<u8> {
    let pair = pair(prng);
    request::body(LISTING, &[], &[&pair.snapshot, &pair.log])
}

pub fn recover_write_request(prng: &mut Prng) -> Vec<u8> {
    let pair = pair(prng);
    let call = prng.pick(&[RECOVER_WRITE, RECOVER_COMPACT]);
    let (row_words, entries) = lent(prng, pair.rows_wanted());
    let needed = recover(pair.sources(), MAX_RECORDS).map_or(60, |state| {
        let gone = |size| if call == RECOVER_COMPACT { size } else { 0 };
        let not_written: u64 =
            state.rows.iter().filter(|row| row.deleted).map(|row| gone(row.size(state.config.d))).sum();
        SNAPSHOT_FRAME + state.size - not_written
    });
    let length = output_length(prng, needed).min(65_536);
    let numbers = [row_words, entries, length, prng.below(256), table_fill(prng)];
    request::body(call, &numbers, &[&pair.snapshot, &pair.log])
}

/// Exactly enough, one too few, more, none.
pub fn output_length(prng: &mut Prng, needed: u64) -> u64 {
    match prng.below(10) {
        0..4 => needed,
        4..6 => needed.saturating_sub(1),
        6 => prng.below(needed + 1),
        7 => 0,
        _ => needed + prng.between(1, 9),
    }
}
