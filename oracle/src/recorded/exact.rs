//! How cases are put down whose answers the document decides, beside those that the original is asked for.
//! The paragraph "Refusal numbers" of document 01.

use crate::cases::Case;
use crate::judge::{Expect, Judge};

/// Cases in their order, with the original listening, so that it can be asked about the last build.
#[derive(Default)]
pub(super) struct Asked {
    judge: Judge,
    pub cases: Vec<Case>,
}

impl Asked {
    /// What the original answers.
    pub fn judged(&mut self, question: Vec<u8>) {
        let expect = self.judge.answer(&question).expect("the question is whole");
        self.cases.push(Case { question, expect, aim: None });
    }

    /// A refusal that the document decides, with its place.
    pub fn refused(&mut self, number: u8, place: u32, question: Vec<u8>) {
        self.judge.answer(&question);
        let expect = Expect::Exactly { number, place, image: Vec::new() };
        self.cases.push(Case { question, expect, aim: None });
    }

    /// A refusal of a write: the image, as it was, stands after it.
    pub fn kept(&mut self, number: u8, place: u32, question: Vec<u8>, image: Vec<u8>) {
        self.cases.push(Case { question, expect: Expect::Exactly { number, place, image }, aim: None });
    }

    /// An answer that the document decides.
    pub fn given(&mut self, question: Vec<u8>, bytes: &[u8]) {
        self.cases.push(Case { question, expect: Expect::Bytes(bytes.to_vec()), aim: None });
    }
}

/// A question of a kind.
pub(super) fn question(kind: u8, body: &[u8]) -> Vec<u8> {
    [&[kind], body].concat()
}

/// The type word of a type of the book, as it is added.
pub(super) fn declared(number: usize) -> u16 {
    0x8000 + 4 + number as u16
}
