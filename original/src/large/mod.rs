//! Named cases too large for a program's stack; a native host lends the memory.
mod build;
mod caches;
mod logs;
mod snapshots;
mod tables;

pub struct Case {
    pub name: &'static str,
    pub about: &'static str,
    /// How the answer's first line begins.
    pub answer: &'static str,
    /// The request without its length field.
    pub build: fn() -> Vec<u8>,
}

/// All cases, subject by subject.
pub fn cases() -> impl Iterator<Item = &'static Case> {
    [snapshots::CASES, logs::CASES, tables::CASES, caches::CASES].into_iter().flatten()
}
