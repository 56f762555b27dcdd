//! From a request to the model's reply: one arm for a call.
use crate::{
    cache::{Expected, read_cache},
    config::{Config, rng_state},
    coordinates::check_coordinates,
    crc::crc32,
    encode::{self, delete_frame, encode_batch, encode_frame},
    limits::LISTED_ROWS,
    listing::listing,
    recover::{Recovered, Refusal, recover, start},
    reply::{Accepted, LogCounts, Record, Reply, WriteRefusal},
    request::*,
    rows::{Sources, rows_lent},
    utf8::is_utf8,
    views,
    write::{State, write_snapshot},
};

/// Lent memory beyond this is a mistake of the request, not a case.
const MAX_LENT: u64 = 1 << 30;

/// The reply to a request without its length field.
pub fn answer(bytes: &[u8]) -> Reply {
    match Request::parse(bytes) {
        Some(request) => answer_request(&request).unwrap_or(Reply::BadRequest),
        None => Reply::BadRequest,
    }
}

/// None for what docs/QUESTIONS.md calls a bad request.
pub fn answer_request(request: &Request) -> Option<Reply> {
    let numbers = &request.numbers[..];
    let parts = &request.parts[..];
    Some(match request.call {
        CRC | C_CRC => Reply::Crc(crc32(parts[0])),
        UTF8 | C_UTF8 => Reply::Utf8(is_utf8(parts[0])),
        DEFAULTS => Reply::Settings(Config::new(numbers[0])),
        VALIDATE => Reply::Validated(Config::from_numbers(numbers)?.validate()),
        COORDINATES => answer_coordinates(numbers[0], parts[0])?,
        RNG_STATE => Reply::Rng(rng_state(numbers[0], numbers[1])),
        READ_SNAPSHOT | RECOVER => answer_read(request, numbers[0], numbers[1]),
        LISTING => Reply::Listing(answer_listing(sources_of(request)?)),
        ENCODE_FRAME | ENCODE_BATCH => answer_encode(request)?,
        WRITE_SNAPSHOT | WRITE_COMPACTED => answer_write(request)?,
        RECOVER_WRITE | RECOVER_COMPACT => answer_recover_write(request)?,
        LOOKUP => Reply::Lookup(views::lookup(&words64(parts[0])?, numbers[0], numbers[1])),
        CAPTION_VIEW | VECTOR_VIEW => answer_view(request)?,
        READ_CACHE => answer_cache(request)?,
        NEIGHBOURS => {
            let starts = words64(parts[0])?;
            view(views::neighbours(&starts, numbers[0], numbers[1], numbers[2], parts[1]))
        }
        C_DELETE_FRAME => answer_delete_frame(numbers),
        _ => return None,
    })
}

/// The snapshot and the log of a request; reading a snapshot is reading it beside an empty log.
pub fn sources_of<'a>(request: &Request<'a>) -> Option<Sources<'a>> {
    let parts = &request.parts;
    match request.call {
        READ_SNAPSHOT => Some(Sources { snapshot: parts[0], log: &[] }),
        RECOVER | LISTING | RECOVER_WRITE | RECOVER_COMPACT => {
            Some(Sources { snapshot: parts[0], log: parts[1] })
        }
        WRITE_SNAPSHOT | WRITE_COMPACTED | CAPTION_VIEW | VECTOR_VIEW => {
            Some(Sources { snapshot: parts[1], log: parts[2] })
        }
        _ => None,
    }
}

fn answer_coordinates(metric: u64, coordinates: &[u8]) -> Option<Reply> {
    let length = coordinates.len();
    let good = metric <= 2 && (4..=16_384).contains(&length) && length % 4 == 0;
    good.then(|| Reply::Validated(check_coordinates(metric, coordinates)))
}

/// The tables' fill is looked at nowhere: a call leaves its rows and zeros, refused or not, whatever was there.
fn answer_read(request: &Request, row_words: u64, active_entries: u64) -> Reply {
    if row_words > MAX_LENT || active_entries > MAX_LENT {
        return Reply::TooLarge;
    }
    let sources = sources_of(request).unwrap();
    let lent = rows_lent(row_words, Some(active_entries));
    let recovered = if request.call == READ_SNAPSHOT {
        start(sources.snapshot, lent).map_err(Refusal::Snapshot)
    } else {
        recover(sources, lent)
    };
    let mut rows = vec![0; row_words as usize];
    let mut active = vec![0; active_entries as usize];
    if let Ok(state) = &recovered {
        for (node, row) in state.rows.iter().enumerate() {
            rows[2 * node..2 * node + 2].copy_from_slice(&row.words());
        }
        for (place, node) in state.active.values().enumerate() {
            active[place] = *node;
        }
    }
    let outcome = recovered.map(|state| accepted(&state, sources, request.call == RECOVER));
    Reply::Read { outcome, rows, active }
}

pub fn accepted(state: &Recovered, sources: Sources, with_log: bool) -> Accepted {
    let d = state.config.d;
    let records = state.rows.iter().map(|row| Record {
        id: row.id,
        deleted: row.deleted,
        coordinates: row.coordinates(d, sources).unwrap().to_vec(),
        caption: row.caption(d, sources).unwrap().to_vec(),
    });
    Accepted {
        config: state.config,
        snapshot_crc: state.snapshot_crc,
        sequence: state.sequence,
        active: state.active.len() as u64,
        log: with_log.then_some(LogCounts {
            replayed: state.replayed,
            skipped: state.skipped,
            keep: state.keep,
            tail: state.tail,
        }),
        size: state.size,
        records: records.collect(),
    }
}

pub fn answer_listing(sources: Sources) -> Vec<u8> {
    let outcome = recover(sources, LISTED_ROWS).map(|state| accepted(&state, sources, true));
    listing(sources, &outcome)
}

fn lent_output(length: u64, fill: u64) -> Option<Vec<u8>> {
    (length <= MAX_LENT).then(|| vec![fill as u8; length as usize])
}

fn answer_encode(request: &Request) -> Option<Reply> {
    let operation_words = words64(request.parts[0])?;
    let coordinates = words32(request.parts[1])?;
    let asked = encode_request(request, &operation_words, &coordinates)?;
    let Some(mut output) = lent_output(request.numbers[6], request.numbers[7]) else {
        return Some(Reply::TooLarge);
    };
    let outcome = if request.call == ENCODE_BATCH {
        encode_batch(&asked, &mut output)
    } else {
        encode_frame(&asked, &mut output)
    };
    Some(Reply::Encoded { outcome, output })
}

pub fn encode_request<'a>(
    request: &Request<'a>,
    operation_words: &'a [u64],
    coordinates: &'a [u32],
) -> Option<encode::Request<'a>> {
    Some(encode::Request {
        config: Config::from_numbers(&request.numbers[..5])?,
        sequence: request.numbers[5],
        operation_words,
        coordinates,
        captions: request.parts[2],
    })
}

fn answer_write(request: &Request) -> Option<Reply> {
    let row_words = words64(request.parts[0])?;
    let state = write_state(request, &row_words)?;
    let Some(mut output) = lent_output(request.numbers[7], request.numbers[8]) else {
        return Some(Reply::TooLarge);
    };
    let compacted = request.call == WRITE_COMPACTED;
    let outcome = write_snapshot(&state, compacted, &mut output).map_err(WriteRefusal::Writer);
    Some(Reply::Written { outcome, output })
}

pub fn write_state<'a>(request: &Request<'a>, row_words: &'a [u64]) -> Option<State<'a>> {
    Some(State {
        config: Config::from_numbers(&request.numbers[..5])?,
        sequence: request.numbers[5],
        count: request.numbers[6],
        row_words,
        sources: sources_of(request)?,
    })
}

fn answer_recover_write(request: &Request) -> Option<Reply> {
    let &[row_words, active_entries, length, fill, _] = &request.numbers[..] else { return None };
    let Some(mut output) = lent_output(length, fill) else { return Some(Reply::TooLarge) };
    if row_words > MAX_LENT || active_entries > MAX_LENT {
        return Some(Reply::TooLarge);
    }
    let sources = sources_of(request)?;
    let compacted = request.call == RECOVER_COMPACT;
    let outcome = recover(sources, rows_lent(row_words, Some(active_entries)))
        .map_err(WriteRefusal::Recovery)
        .and_then(|state| {
            write_recovered(&state, sources, compacted, &mut output).map_err(WriteRefusal::Writer)
        });
    Some(Reply::Written { outcome, output })
}

/// The snapshot of a recovered state.
pub fn write_recovered(
    state: &Recovered,
    sources: Sources,
    compacted: bool,
    output: &mut [u8],
) -> Result<u64, u32> {
    let row_words: Vec<u64> = state.rows.iter().flat_map(|row| row.words()).collect();
    let state = State {
        config: state.config,
        sequence: state.sequence,
        count: state.rows.len() as u64,
        row_words: &row_words,
        sources,
    };
    write_snapshot(&state, compacted, output)
}

fn answer_view(request: &Request) -> Option<Reply> {
    let row_words = words64(request.parts[0])?;
    let &[d, count, node] = &request.numbers[..] else { return None };
    let sources = sources_of(request)?;
    Some(view(if request.call == CAPTION_VIEW {
        views::caption(&row_words, d, count, node, sources)
    } else {
        views::vector(&row_words, d, count, node, sources)
    }))
}

fn view(outcome: Result<&[u8], u32>) -> Reply {
    match outcome {
        Ok(part) => Reply::View { number: 0, part: part.to_vec() },
        Err(number) => Reply::View { number, part: Vec::new() },
    }
}

/// Call 19's numbers besides the starts lent and their fill.
pub fn expected_cache(numbers: &[u64]) -> Option<Expected> {
    Some(Expected {
        config: Config::from_numbers(&numbers[..5])?,
        snapshot_crc: u32::try_from(numbers[5]).ok()?,
        sequence: numbers[6],
        count: numbers[7],
    })
}

fn answer_cache(request: &Request) -> Option<Reply> {
    let expected = expected_cache(&request.numbers)?;
    let starts_lent = request.numbers[8];
    if starts_lent > MAX_LENT {
        return Some(Reply::TooLarge);
    }
    let outcome = read_cache(&expected, request.parts[0], starts_lent);
    let mut starts = vec![0; starts_lent as usize];
    if let Ok(graph) = &outcome {
        starts[..graph.starts.len()].copy_from_slice(&graph.starts);
    }
    Some(Reply::Cache { outcome, starts })
}

fn answer_delete_frame(numbers: &[u64]) -> Reply {
    let Some(mut output) = lent_output(numbers[2], numbers[3]) else { return Reply::TooLarge };
    let written = delete_frame(numbers[0], numbers[1], &mut output);
    Reply::DeleteFrame { written, output }
}
