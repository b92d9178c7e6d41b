//! The Rust original, unchanged, as the judge of the port: questions with its answers, and the comparison.
//! It covers the comparison domain, the last paragraph of "Refusal numbers" in document 01.

#[allow(dead_code)]
#[rustfmt::skip]
#[path = "../../../shared/docs/src/crates/ciplink-sim/src/config.rs"]
pub mod config;
#[allow(dead_code)]
#[rustfmt::skip]
#[path = "../../../shared/docs/src/crates/ciplink-sim/src/model.rs"]
mod model;

pub mod book;
pub mod cases;
pub mod comparing;
mod describe;
pub mod edges;
pub mod frames;
pub mod generate;
pub mod judge;
pub mod options;
#[cfg(test)]
mod outside;
pub mod pace;
pub mod recorded;
mod rng;
pub mod stream;
pub mod text;
mod values;
