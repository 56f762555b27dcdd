//! The calls that have no code yet: original/not-yet.txt is the one list. A call of the list must be
//! answered `not yet`, so that the list is emptied as calls get code, and no other call may be.

/// The answer to a call that has no code yet (docs/QUESTIONS.md).
pub const NOT_YET: &str = "not yet\n.\n";

const LIST: &str = include_str!("../not-yet.txt");

pub fn is_listed(body: &[u8]) -> bool {
    calls().any(|call| body.first() == Some(&call))
}

fn calls() -> impl Iterator<Item = u8> {
    let lines = LIST.lines().filter(|line| !line.starts_with('#'));
    lines.map(|line| line.split(' ').next().unwrap().parse().expect("not-yet.txt: a call's number"))
}
