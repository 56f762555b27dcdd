//! The fixed list: every call and every reachable answer, small enough to be kept.
use crate::{
    beside::Beside,
    generate::{self, Kind, boundaries, exhaustive},
    histogram::{Histogram, label},
};
use model::request::{CALLS, with_length};

/// Requests and answers together; and how many there are.
const MOST_BYTES: usize = 2 * 1024 * 1024 - 64 * 1024;
const MOST_CASES: usize = 5_000;
const SEED: u64 = 1;
/// Every answer of a call is wanted so often from so many small cases.
const OF_EACH: u64 = 8;
const SEARCHED: u64 = 200_000;
const SMALL: usize = 1_000;
/// An answer that no small case gives is wanted once from these.
const SEARCHED_FOR_MISSING: u64 = 40_000;

#[derive(Default)]
pub struct Fixed {
    pub requests: Vec<u8>,
    pub answers: Vec<u8>,
    pub count: usize,
    pub histogram: Histogram,
}

impl Fixed {
    /// Takes the case if its answer has come up less than `of_each` times and it is not larger than `most`.
    fn take(&mut self, body: &[u8], beside: &mut Beside, of_each: u64, most: usize) {
        if body.len() > most {
            return;
        }
        let answer = beside.answer(body);
        assert!(answer.findings.is_empty(), "{:?}", answer.findings);
        // Unknown calls are one call here.
        let call = body.first().copied().unwrap_or(0).min(CALLS.len() as u8 + 1);
        let text = answer.reply.text();
        let is_rare = self.histogram.count(call, &label(&answer.reply)) < of_each;
        let bytes = self.requests.len() + self.answers.len() + body.len() + 4 + text.len();
        if is_rare && bytes <= MOST_BYTES && self.count < MOST_CASES {
            self.histogram.add(call, &answer.reply);
            self.requests.extend(with_length(body));
            self.answers.extend(text.bytes());
            self.count += 1;
        }
    }
}

pub fn fixed() -> Fixed {
    let mut fixed = Fixed::default();
    let mut beside = Beside::new();
    for body in boundaries::requests() {
        fixed.take(&body, &mut beside, u64::MAX, usize::MAX);
    }
    // Some of the exhaustive ones: cuts of pairs, each class of character.
    for body in exhaustive::all_short().step_by(59) {
        fixed.take(&body, &mut beside, 300, SMALL);
    }
    for index in 0..SEARCHED {
        fixed.take(&generate::request(SEED, index, Kind::Mixed), &mut beside, OF_EACH, SMALL);
    }
    for index in 0..SEARCHED_FOR_MISSING {
        fixed.take(&generate::request(SEED + 1, index, Kind::Mixed), &mut beside, 1, usize::MAX);
    }
    for index in 0..MOST_CASES as u64 {
        fixed.take(&generate::request(SEED + 2, index, Kind::Mixed), &mut beside, u64::MAX, SMALL);
    }
    fixed
}
