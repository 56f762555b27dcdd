//! Many cases, two answers each; stops at the first difference, which can be shrunk and written down.
use crate::{
    answerer::Answerer,
    beside::Beside,
    not_yet::{NOT_YET, is_listed},
    shrink::shrink,
};
use model::request::with_length;
use std::{collections::BTreeMap, fs, io, path::Path, slice};

const BAD_REQUEST: &[u8] = b"bad request\n.\n";

/// Cases asked at once.
const TOGETHER: usize = 4000;

/// What was asked when nothing differed.
#[derive(Default)]
pub struct Tally {
    alike: BTreeMap<u8, u64>,
    bad_requests: u64,
    not_yet: u64,
}

/// The one answer that passes.
struct Wanted {
    text: String,
    /// What makes any answer wrong, or why this one is wanted, in words.
    notes: Vec<String>,
    /// Model and original differ.
    is_open: bool,
}

pub struct Difference {
    pub index: usize,
    pub body: Vec<u8>,
    wanted: Wanted,
    pub theirs: Vec<u8>,
}

pub fn compare(
    mut bodies: impl Iterator<Item = Vec<u8>>,
    other: &mut dyn Answerer,
) -> Result<Tally, Difference> {
    let mut beside = Beside::new();
    let mut tally = Tally::default();
    let mut asked = 0;
    loop {
        let some: Vec<Vec<u8>> = bodies.by_ref().take(TOGETHER).collect();
        if some.is_empty() {
            return Ok(tally);
        }
        let answers = other.answers(&some);
        for (place, body) in some.iter().enumerate() {
            if differs(body, answers.get(place), &mut beside) {
                return Err(Difference::new(asked + place, body.clone(), &mut beside, other));
            }
            tally.add(body, &answers[place]);
        }
        asked += some.len();
        eprintln!("{asked} cases asked");
    }
}

pub fn differs(body: &[u8], given: Option<&Vec<u8>>, beside: &mut Beside) -> bool {
    Wanted::of(body, given, beside).differs(given)
}

impl Wanted {
    /// Beside this answer: to a call without code `bad request` may be right too.
    fn of(body: &[u8], given: Option<&Vec<u8>>, beside: &mut Beside) -> Self {
        if is_listed(body) && given.map(Vec::as_slice) != Some(BAD_REQUEST) {
            let notes = vec!["original/not-yet.txt lists this call as one without code".into()];
            return Self { text: NOT_YET.into(), notes, is_open: false };
        }
        let answer = beside.answer(body);
        let notes: Vec<String> =
            answer.findings.iter().map(|finding| format!("model and original: {finding}")).collect();
        Self { text: answer.reply.text(), is_open: !notes.is_empty(), notes }
    }

    fn differs(&self, given: Option<&Vec<u8>>) -> bool {
        self.is_open || given.map(Vec::as_slice) != Some(self.text.as_bytes())
    }
}

impl Tally {
    fn add(&mut self, body: &[u8], answer: &[u8]) {
        if answer == NOT_YET.as_bytes() {
            self.not_yet += 1;
            return;
        }
        *self.alike.entry(body.first().copied().unwrap_or(0)).or_default() += 1;
        self.bad_requests += u64::from(answer == BAD_REQUEST);
    }

    pub fn text(&self) -> String {
        let (alike, bad, not_yet) = (self.alike.values().sum::<u64>(), self.bad_requests, self.not_yet);
        let by_call: Vec<String> =
            self.alike.iter().map(|(call, count)| format!("{call}: {count}")).collect();
        let by_call = by_call.join(", ");
        format!(
            "{alike} alike (of them {bad} bad requests), {not_yet} not yet, 0 differ\nby call: {by_call}\n"
        )
    }
}

impl Difference {
    fn new(index: usize, body: Vec<u8>, beside: &mut Beside, other: &mut dyn Answerer) -> Self {
        let theirs = other.answers(slice::from_ref(&body)).into_iter().next().unwrap_or_default();
        let wanted = Wanted::of(&body, Some(&theirs), beside);
        Self { index, body, wanted, theirs }
    }

    pub fn shrunk(self, other: &mut dyn Answerer) -> Self {
        let mut beside = Beside::new();
        let body = shrink(self.body, &mut beside, other);
        Self::new(self.index, body, &mut beside, other)
    }

    /// The request and both answers, for whoever mends it.
    pub fn write_to(&self, folder: &Path) -> io::Result<()> {
        fs::create_dir_all(folder)?;
        fs::write(folder.join("request.bin"), with_length(&self.body))?;
        fs::write(folder.join("wanted.txt"), &self.wanted.text)?;
        fs::write(folder.join("given.txt"), &self.theirs)
    }

    pub fn text(&self) -> String {
        let notes: String = self.wanted.notes.iter().map(|note| format!("{note}\n")).collect();
        format!("{notes}wanted\n{}given\n{}", self.wanted.text, String::from_utf8_lossy(&self.theirs))
    }
}
