//! The original beside us: the unchanged Rust answers the requests of docs/QUESTIONS.md, the model
//! answers what the original does not have, and whatever else answers is compared with both.

// The original's own modules, at the root of this crate because they name each other by it.
include!(concat!(env!("OUT_DIR"), "/vecnook.rs"));
mod index;
#[allow(unused_imports)]
pub(crate) use {
    batch::Mutation,
    config::{Config, Metric},
    error::{Error, Result},
    index::{Record, VectorIndex},
};

// Ours.
pub mod answerer;
pub mod beside;
pub mod compare;
mod files;
pub mod fixed;
pub mod generate;
pub mod histogram;
pub mod large;
mod messages;
pub mod native;
mod not_yet;
mod shrink;
mod vecnook;
