//! Cases from a seed: books within and around the comparison domain, and questions about each of them.
//! The last paragraph of "Refusal numbers" in document 01 says what the domain is.

mod books;
mod edge_books;
mod faults;
mod images;
mod misfits;
mod names;
mod questions;
mod sizes;
mod trees;
mod values;

use crate::book::{self, Places};
use crate::cases::{Case, Kinds};
use crate::config::TypeConfig;
use crate::judge::{self, Expect, Judge};
use crate::model::{StructDef, Types};
use crate::rng::Rng;
use sizes::Sizes;
use std::collections::VecDeque;

/// What the tables hold: the domain has no books that fill them (refusal 13).
const MOST_TYPES: usize = 200;
const MOST_MEMBERS: usize = 2_000;
const MOST_NAME_BYTES: usize = 32_768;

/// An endless run of cases; the same seed and kinds give the same ones.
pub struct Generator {
    seed: u64,
    kinds: Kinds,
    book: u64,
    ready: VecDeque<Case>,
}

impl Generator {
    pub fn new(seed: u64, kinds: Kinds) -> Generator {
        Generator { seed, kinds, book: 0, ready: VecDeque::new() }
    }

    /// The book of this number with its questions. Each kind draws from its own numbers, so that picking kinds
    /// changes no question of another.
    fn prepare(&mut self, number: u64) {
        let mut rng = Rng::new(&[self.seed, number]);
        let (types, aim) = draw_book(&mut rng, self.seed, number);
        let mut judge = Judge::default();
        let question = book_question(&mut rng, &types);
        let expect = judge.answer(&question).expect("a build has all its fields");
        let built = matches!(expect, Expect::Bytes(_));
        self.ready.push_back(Case { question, expect, aim });
        let sizes = Sizes::of(&judge.types);
        for kind in self.kinds.after_build() {
            let rng = Rng::new(&[self.seed, number, u64::from(kind)]);
            let asked = questions::about(rng, &mut judge, &sizes, kind, built);
            self.ready.extend(asked);
        }
    }
}

impl Iterator for Generator {
    type Item = Case;

    fn next(&mut self) -> Option<Case> {
        if self.ready.is_empty() {
            self.prepare(self.book);
            self.book += 1;
        }
        self.ready.pop_front()
    }
}

/// In turn an ordinary book, one at an edge, and one with a fault, and the refusal that it aims at.
fn draw_book(rng: &mut Rng, seed: u64, number: u64) -> (Vec<TypeConfig>, Option<u8>) {
    let turn = (number / 3).wrapping_add(seed.wrapping_mul(37)) as usize;
    let (types, aim) = match number % 3 {
        0 => (books::ordinary(rng), None),
        1 => (edge_books::edge(rng, turn), None),
        _ => {
            let (types, refusal) = faults::faulty(rng, turn);
            (types, Some(refusal))
        }
    };
    match Types::build(&types) {
        Ok(built) if !fits(&built) => (Vec::new(), None),
        _ => (types, aim),
    }
}

/// The built types stay within the tables.
fn fits(types: &Types) -> bool {
    let members: usize = types.defs.iter().map(|d| d.members.len()).sum();
    types.defs.len() <= MOST_TYPES && members <= MOST_MEMBERS && name_bytes(types) <= MOST_NAME_BYTES
}

/// The bytes of all type and member names, predefined and hidden included.
pub(crate) fn name_bytes(types: &Types) -> usize {
    let of_members = |d: &StructDef| d.members.iter().map(|m| m.name.len()).sum::<usize>();
    types.defs.iter().map(|d| d.name.len() + of_members(d)).sum()
}

fn book_question(rng: &mut Rng, types: &[TypeConfig]) -> Vec<u8> {
    let members: usize = types.iter().map(|t| t.members.len()).sum();
    let places = match rng.below(6) {
        0 => Places::Gaps,
        // sharing searches the bodies for every name
        1 | 2 if members < 300 => Places::Shared,
        _ => Places::Apart,
    };
    judge::build_question(&book::encode(types, places).expect("a drawn book can be said"))
}
