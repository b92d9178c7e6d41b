//! The recorded list: a few cases for each edge, for a gate that has no Rust original at hand.
//! Refusals that document 01 alone decides ("Refusal numbers") stand in it with their numbers and places.

mod exact;
mod full;
mod normals;
mod pick;
mod refused_books;
mod refused_questions;
mod refused_reads;
mod refused_writes;

use crate::cases::{Case, Kinds};

/// First what the document alone decides, then the picked cases: books that fill the tables, and generated ones.
pub fn cases(generated: impl Iterator<Item = Case>, kinds: Kinds) -> Vec<Case> {
    let questions = refused_questions::all().into_iter().chain(refused_books::all());
    let values = refused_reads::all().into_iter().chain(refused_writes::all()).chain(normals::all());
    let decided = questions.chain(values);
    let mut out: Vec<Case> = decided.filter(|case| kinds.asks(case)).collect();
    let filled = full::all().into_iter().filter(|case| kinds.asks(case));
    out.extend(pick::few(filled.chain(generated)));
    out
}
