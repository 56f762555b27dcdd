//! A plain model of document 01: it answers every request of docs/QUESTIONS.md in full.
//! It is written from the document in the simplest way, never from the code it is compared with.

pub mod answer;
pub mod cache;
pub mod config;
pub mod coordinates;
pub mod crc;
pub mod encode;
pub mod fields;
pub mod limits;
pub mod listing;
pub mod log;
pub mod recover;
pub mod reply;
pub mod request;
pub mod rows;
pub mod snapshot;
pub mod text;
pub mod utf8;
pub mod views;
pub mod write;

#[cfg(test)]
mod edges;
