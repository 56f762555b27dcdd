//! The original's answer laid over the model's: where the original can answer, its values stand in
//! the reply, and a value that differs from the model's is a finding.
mod check;
mod encoders;
mod records;

use crate::{
    Record,
    vecnook::{self, Outcome, Vecnook},
};
use check::Check;
use encoders::{delete_frame, encoded};
use model::{
    answer::{accepted, answer_request, expected_cache, sources_of, write_state},
    cache::{Graph, read_cache},
    config::Config,
    limits::{LISTED_ROWS, MAX_LOG, MAX_RECORDS, SNAPSHOT_FRAME},
    listing::{is_refused_file, listing},
    recover::{Refusal, recover},
    reply::{Accepted, Reply, WriteRefusal},
    request::*,
    rows::Sources,
};
use records::{original_accepted, original_records};

pub struct Beside {
    original: Vecnook,
}

pub struct Answer {
    pub reply: Reply,
    /// Where model and original differ, in words.
    pub findings: Vec<String>,
}

impl Beside {
    #[allow(clippy::new_without_default)]
    pub fn new() -> Self {
        Self { original: Vecnook::new() }
    }

    /// The answer to a request without its length field.
    pub fn answer(&mut self, body: &[u8]) -> Answer {
        let mut findings = Vec::new();
        let request = Request::parse(body);
        let reply = request.as_ref().and_then(|request| answer_request(request)).unwrap_or(Reply::BadRequest);
        let Some(request) = request else { return Answer { reply, findings } };
        let reply = self.lay_over(&request, reply, &mut findings);
        Answer { reply, findings }
    }

    fn lay_over(&mut self, request: &Request, reply: Reply, findings: &mut Vec<String>) -> Reply {
        let numbers = &request.numbers;
        let mut check = Check { findings };
        match reply {
            Reply::Crc(crc) => Reply::Crc(check.same("crc", crc, vecnook::crc32(request.parts[0]))),
            Reply::Utf8(good) => Reply::Utf8(check.same("utf8", good, vecnook::is_utf8(request.parts[0]))),
            Reply::Settings(config) => {
                let original = crate::Config::new(numbers[0] as usize);
                Reply::Settings(check.same("defaults", config, vecnook::settings(&original)))
            }
            Reply::Validated(outcome) => Reply::Validated(validated(request, outcome, &mut check)),
            Reply::Read { outcome, rows, active } => {
                let sources = sources_of(request).unwrap();
                let outcome = self.read(sources, request.call == RECOVER, outcome, &mut check);
                Reply::Read { outcome, rows, active }
            }
            Reply::Listing(text) => {
                Reply::Listing(self.listing(sources_of(request).unwrap(), text, &mut check))
            }
            Reply::Encoded { outcome, output } => encoded(request, outcome, output, &mut check),
            Reply::Written { outcome, output } => match request.call {
                RECOVER_WRITE | RECOVER_COMPACT => self.recover_write(request, outcome, output, &mut check),
                _ => self.write(request, outcome, output, &mut check),
            },
            Reply::Cache { outcome, starts } => {
                let outcome = self.cache(request, outcome, &mut check);
                Reply::Cache { outcome, starts }
            }
            Reply::DeleteFrame { written, output } => delete_frame(numbers, written, output, &mut check),
            // The original has no rows, lookup, views or RNG call.
            other => other,
        }
    }

    fn read(
        &mut self,
        sources: Sources,
        with_log: bool,
        outcome: Result<Accepted, Refusal>,
        check: &mut Check,
    ) -> Result<Accepted, Refusal> {
        if sources.log.len() as u64 > MAX_LOG {
            return outcome;
        }
        let original = self.original.recover(sources);
        let original =
            original.map(|outcome| outcome.map(|state| original_accepted(&state, sources, with_log)));
        if !is_for_want_of_rows(&outcome) {
            return check.outcome("recovery", outcome, original);
        }
        // The original never wants rows: with all rows lent the model must still agree with it.
        let with_all_rows = recover(sources, MAX_RECORDS).map(|state| accepted(&state, sources, with_log));
        let _checked = check.outcome("recovery with all rows", with_all_rows, original);
        outcome
    }

    fn listing(&mut self, sources: Sources, text: Vec<u8>, check: &mut Check) -> Vec<u8> {
        if is_refused_file(sources) {
            return text;
        }
        let outcome = recover(sources, LISTED_ROWS).map(|state| accepted(&state, sources, true));
        let outcome = self.read(sources, true, outcome, check);
        check.same("listing", text, listing(sources, &outcome))
    }

    fn recover_write(
        &mut self,
        request: &Request,
        outcome: Result<u64, WriteRefusal>,
        output: Vec<u8>,
        check: &mut Check,
    ) -> Reply {
        let sources = sources_of(request).unwrap();
        if let Err(WriteRefusal::Recovery(refusal)) = outcome {
            let refused = self.read(sources, true, Err(refusal), check);
            let outcome = refused.map(|_| 0).map_err(WriteRefusal::Recovery);
            return Reply::Written { outcome, output };
        }
        let state = match self.original.recover(sources) {
            Ok(Ok(state)) => state,
            Ok(Err(refusal)) => {
                check.finding(format!("recovery: accepted by the model, original {refusal:?}"));
                return Reply::Written { outcome: Err(WriteRefusal::Recovery(refusal)), output };
            }
            Err(message) => {
                check.finding(format!("recovery: the original's message has no number: {message}"));
                return Reply::Written { outcome, output };
            }
        };
        let compacted = request.call == RECOVER_COMPACT;
        let size: usize = state.records.iter().map(Record::encoded_len).sum();
        let bytes = self.original.write(state.config, state.records, state.sequence, compacted);
        if let (Ok(Ok(bytes)), false) = (&bytes, compacted) {
            // What supports encoded_len, which the documents lack.
            check.same("length of a full snapshot", size as u64 + SNAPSHOT_FRAME, bytes.len() as u64);
        }
        written(outcome, output, bytes, check)
    }

    /// A table as it is handed in: the original can write it if its rows are in order and its captions text.
    fn write(
        &mut self,
        request: &Request,
        outcome: Result<u64, WriteRefusal>,
        output: Vec<u8>,
        check: &mut Check,
    ) -> Reply {
        let row_words = words64(request.parts[0]).unwrap();
        let state = write_state(request, &row_words).unwrap();
        let compacted = request.call == WRITE_COMPACTED;
        let Some(records) = original_records(&state) else { return Reply::Written { outcome, output } };
        let config = vecnook::config(&state.config);
        let bytes = self.original.write(config, records, state.sequence, compacted);
        written(outcome, output, bytes, check)
    }

    fn cache(
        &mut self,
        request: &Request,
        outcome: Result<Graph, u32>,
        check: &mut Check,
    ) -> Result<Graph, u32> {
        let expected = expected_cache(&request.numbers).unwrap();
        if expected.config.validate().is_err() {
            return outcome;
        }
        let config = vecnook::config(&expected.config);
        let bytes = request.parts[0];
        let original = self.original.read_cache(
            &config,
            expected.snapshot_crc,
            expected.sequence,
            expected.count,
            bytes,
        );
        let wants_starts = outcome == Err(51);
        let all_starts =
            if wants_starts { read_cache(&expected, bytes, MAX_RECORDS) } else { outcome.clone() };
        // The original keeps no offsets: those are the model's.
        let starts = all_starts.as_ref().map_or(Vec::new(), |graph| graph.starts.clone());
        let original = original.map(|outcome| {
            outcome.map(|graph| Graph {
                entry: graph.entry.map(|entry| entry as u64),
                rng: graph.rng_state,
                starts,
                links: widened(graph.links),
            })
        });
        let answered = check.outcome("cache", all_starts, original);
        if wants_starts { outcome } else { answered }
    }
}

fn is_for_want_of_rows(outcome: &Result<Accepted, Refusal>) -> bool {
    matches!(outcome, Err(Refusal::Snapshot(19) | Refusal::Log { number: 19, .. }))
}

fn written(
    outcome: Result<u64, WriteRefusal>,
    mut output: Vec<u8>,
    original: Outcome<Vec<u8>, u32>,
    check: &mut Check,
) -> Reply {
    let fits = |bytes: &Vec<u8>| bytes.len() <= output.len();
    let original = match original {
        Ok(Ok(bytes)) if fits(&bytes) => Ok(Ok(bytes)),
        // The original's file has always room: 32 is document 01's.
        Ok(Ok(_)) => Ok(Err(WriteRefusal::Writer(32))),
        Ok(Err(number)) => Ok(Err(WriteRefusal::Writer(number))),
        Err(message) => Err(message),
    };
    let model = outcome.map(|length| output[..length as usize].to_vec());
    let outcome = check.outcome("written snapshot", model, original).map(|bytes| {
        output[..bytes.len()].copy_from_slice(&bytes);
        bytes.len() as u64
    });
    Reply::Written { outcome, output }
}

fn widened(links: Vec<Vec<Vec<usize>>>) -> Vec<Vec<Vec<u64>>> {
    let widen = |neighbours: Vec<usize>| neighbours.into_iter().map(|node| node as u64).collect();
    links.into_iter().map(|layers| layers.into_iter().map(widen).collect()).collect()
}

/// Settings, or coordinates.
fn validated(request: &Request, outcome: Result<(), u32>, check: &mut Check) -> Result<(), u32> {
    let numbers = &request.numbers;
    if request.call == COORDINATES {
        let original = vecnook::validate_vector(numbers[0], &vecnook::vector(request.parts[0]));
        return check.outcome("coordinates", outcome, original);
    }
    let config = Config::from_numbers(numbers).unwrap();
    check.outcome("validate", outcome, vecnook::validate(&vecnook::config(&config)))
}
