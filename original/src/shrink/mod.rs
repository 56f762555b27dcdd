//! A smaller request that still shows the difference.
mod layout;

use crate::{
    answerer::Answerer,
    beside::Beside,
    compare::differs,
    generate::plan::{repair_crc, repair_log},
};
use model::request::*;

/// Candidates go out together: a program is started once for all of them.
const TOGETHER: usize = 400;

pub fn shrink(body: Vec<u8>, beside: &mut Beside, other: &mut dyn Answerer) -> Vec<u8> {
    let mut smallest = body;
    while let Some(smaller) = first_different(&candidates(&smallest), beside, other) {
        smallest = smaller;
    }
    smallest
}

fn first_different(candidates: &[Vec<u8>], beside: &mut Beside, other: &mut dyn Answerer) -> Option<Vec<u8>> {
    for some in candidates.chunks(TOGETHER) {
        let answers = other.answers(some);
        for (place, candidate) in some.iter().enumerate() {
            if differs(candidate, answers.get(place), beside) {
                return Some(candidate.clone());
            }
        }
    }
    None
}

/// Smaller requests, the boldest first: numbers made smaller, then bytes left out of parts.
fn candidates(body: &[u8]) -> Vec<Vec<u8>> {
    let Some(request) = Request::parse(body) else { return Vec::new() };
    let mut candidates = Vec::new();
    for place in 0..request.numbers.len() {
        let number = request.numbers[place];
        for smaller in [0, 1, number / 2, number.saturating_sub(1)] {
            if smaller < number {
                let mut request = request.clone();
                request.numbers[place] = smaller;
                candidates.push(request.body());
            }
        }
    }
    for place in 0..request.parts.len() {
        for variant in smaller_parts(request.call, place, request.parts[place]) {
            let mut request = request.clone();
            request.parts[place] = &variant;
            candidates.push(request.body());
        }
    }
    candidates
}

fn smaller_parts(call: u8, place: usize, part: &[u8]) -> Vec<Vec<u8>> {
    let mut smaller = match role(call, place) {
        Role::Snapshot => layout::smaller_snapshots(part),
        Role::Log => layout::smaller_logs(part),
        Role::Cache | Role::Other => Vec::new(),
    };
    let mut length = part.len();
    while length > 0 {
        for at in (0..part.len()).step_by(length) {
            let mut shorter = part[..at].to_vec();
            shorter.extend(&part[part.len().min(at + length)..]);
            smaller.extend(repaired(role(call, place), shorter));
        }
        length /= 2;
    }
    smaller
}

#[derive(Clone, Copy)]
enum Role {
    Snapshot,
    Log,
    Cache,
    Other,
}

/// What a part of a request is, where its CRCs matter.
fn role(call: u8, place: usize) -> Role {
    match (call, place) {
        (READ_SNAPSHOT | RECOVER | LISTING | RECOVER_WRITE | RECOVER_COMPACT, 0) => Role::Snapshot,
        (RECOVER | LISTING | RECOVER_WRITE | RECOVER_COMPACT, 1) => Role::Log,
        (READ_CACHE, 0) => Role::Cache,
        _ => Role::Other,
    }
}

/// The part as it is, and with its CRCs made right.
fn repaired(role: Role, part: Vec<u8>) -> Vec<Vec<u8>> {
    let mut mended = part.clone();
    match role {
        Role::Snapshot | Role::Cache => repair_crc(&mut mended),
        Role::Log => repair_log(&mut mended),
        Role::Other => return vec![part],
    }
    vec![part, mended]
}
