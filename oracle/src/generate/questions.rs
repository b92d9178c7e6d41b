//! Questions of the kinds 2, 3, 4, 8 and 10 about the types of a book.
//! The paragraphs "Template and handle", "Tag shape" and "Layout" of document 01.

use super::names::{self, recased};
use super::sizes::{Sizes, any_type};
use super::values;
use crate::cases::Case;
use crate::describe::{type_name, type_word};
use crate::judge::Judge;
use crate::model::{Atomic, Ty};
use crate::rng::Rng;

/// What a question is drawn from.
pub(crate) struct Asking<'a> {
    pub rng: Rng,
    pub judge: &'a mut Judge,
    pub sizes: &'a Sizes,
}

/// The questions of one kind about the judge's types; a few where its build was refused and it has none.
pub(crate) fn about(rng: Rng, judge: &mut Judge, sizes: &Sizes, kind: u8, built: bool) -> Vec<Case> {
    let mut asking = Asking { rng, judge, sizes };
    let count = match kind {
        _ if !built => usize::from(asking.rng.one_in(4)),
        2 => asking.judge.types.defs.len().saturating_sub(3).min(12),
        4 | 6 => 6,
        3 | 5 => 4,
        _ => 3,
    };
    (0..count).map(|i| asking.case(kind, i)).collect()
}

impl Asking<'_> {
    fn case(&mut self, kind: u8, i: usize) -> Case {
        let (body, aim) = match kind {
            2 => (self.number(i).to_le_bytes().to_vec(), None),
            3 => self.template(),
            4 => self.shape(),
            5 => values::read(self),
            6 => return values::write(self),
            7 => values::text(self),
            8 => (self.word().to_le_bytes().to_vec(), None),
            9 => values::normal(self),
            _ => (self.name(), None),
        };
        self.judged(kind, body, aim)
    }

    /// A question with the answer that the original gives.
    fn judged(&mut self, kind: u8, mut body: Vec<u8>, aim: Option<u8>) -> Case {
        body.insert(0, kind);
        let expect = self.judge.answer(&body).expect("a drawn question has all its fields");
        Case { question: body, expect, aim }
    }

    /// The book's own types from the last one back, then any, then one that is not there.
    fn number(&mut self, i: usize) -> u16 {
        let n = self.judge.types.defs.len();
        match n.checked_sub(i + 1) {
            Some(own) if own >= 4 => own as u16,
            _ if self.rng.one_in(2) => n as u16,
            _ => self.rng.below(n + 1) as u16,
        }
    }

    /// A type word, at times of no type.
    fn word(&mut self) -> u16 {
        let ty = any_type(&mut self.rng, &self.judge.types);
        if self.rng.one_in(16) { self.wrong_word() } else { type_word(ty) }
    }

    /// A word that no type has.
    pub(crate) fn wrong_word(&mut self) -> u16 {
        let next = 0x8000 + self.judge.types.defs.len() as u16;
        *self.rng.pick(&[0, 0xC0, 0xCC, 0xD0, 0xD5, 0x1C1, 0x80CA, 0xFFFF, next, next])
    }

    /// A room at the template's length, above and one below it.
    fn template(&mut self) -> (Vec<u8>, Option<u8>) {
        let ty = any_type(&mut self.rng, &self.judge.types);
        let length = match ty {
            Ty::Struct(i) => self.judge.types.def(i).template.len(),
            Ty::Atomic(_) => 64,
        };
        let (room, short) = match self.rng.below(12) {
            0 => (length - 1, Some(16)),
            1 => (self.rng.below(length), Some(16)),
            2..=5 => (length, None),
            6 => (length + 1, None),
            7 => (u32::MAX as usize, None),
            _ => (1_048_000, None),
        };
        let wrong = self.rng.one_in(16);
        let word = if wrong { self.wrong_word() } else { type_word(ty) };
        let aim = if wrong || matches!(ty, Ty::Atomic(_)) { Some(15) } else { short };
        ([&word.to_le_bytes()[..], &(room as u32).to_le_bytes()].concat(), aim)
    }

    fn shape(&mut self) -> (Vec<u8>, Option<u8>) {
        let bool = Ty::Atomic(Atomic::Bool);
        let ty = if self.rng.one_in(4) { bool } else { any_type(&mut self.rng, &self.judge.types) };
        let size = self.judge.types.size(ty);
        let (lengths, aim) = match self.rng.below(8) {
            0 => self.refused_lengths(ty == bool),
            1 | 2 if ty == bool => self.bool_lengths(),
            1 | 2 => self.edge_lengths(size),
            _ => ((0..self.rng.below(4)).map(|_| self.rng.between(1, 40) as u32).collect(), None),
        };
        let wrong = self.rng.one_in(32);
        let word = if wrong { self.wrong_word() } else { type_word(ty) };
        let aim = if wrong { Some(15) } else { aim };
        let mut body = word.to_le_bytes().to_vec();
        body.push(lengths.len() as u8);
        lengths.iter().for_each(|n| body.extend(n.to_le_bytes()));
        (body, aim)
    }

    /// Lengths that refusal 23 speaks of.
    fn refused_lengths(&mut self, bool: bool) -> (Vec<u32>, Option<u8>) {
        let lengths = match self.rng.below(4) {
            0 => vec![1; self.rng.between(4, 9)],
            1 if bool => vec![32; self.rng.between(2, 3)],
            2 => vec![2, 0],
            3 => vec![0; self.rng.between(1, 4)],
            _ => vec![3, 2, 0],
        };
        (lengths, Some(23))
    }

    /// Lengths around a rounding to 32s, around the most bytes, and where the rounded length passes a u32.
    fn bool_lengths(&mut self) -> (Vec<u32>, Option<u8>) {
        let fine = [1, 31, 32, 33, 64, 65, (1 << 29) - 31, 1 << 29];
        let large = [(1 << 29) + 1, u32::MAX - 31, u32::MAX - 30, u32::MAX];
        match self.rng.one_in(2) {
            true => (vec![*self.rng.pick(&fine)], None),
            false => (vec![*self.rng.pick(&large)], Some(24)),
        }
    }

    /// At 2^26 bytes, one element beyond, and with products that pass 2^32 and 2^64.
    fn edge_lengths(&mut self, size: usize) -> (Vec<u32>, Option<u8>) {
        let most = ((1u32 << 26) as usize / size.max(1)) as u32;
        let over = if size == 0 { None } else { Some(24) };
        match self.rng.below(7) {
            0 if most > 0 => (vec![most], None),
            1 => (vec![most + 1], over),
            2 => (vec![65_536, 65_536], over),
            3 => (vec![u32::MAX, u32::MAX], over),
            4 => (vec![u32::MAX, u32::MAX, u32::MAX], Some(24)),
            5 => (vec![1 << 22, 1 << 21, 1 << 21], Some(24)),
            _ => (vec![1, u32::MAX, 1], over),
        }
    }

    /// A name to look up: a type's in any case, nearly one, or none.
    fn name(&mut self) -> Vec<u8> {
        let ty = any_type(&mut self.rng, &self.judge.types);
        let name = match self.rng.below(4) {
            0 => names::predefined(&mut self.rng).to_owned(),
            _ => type_name(&self.judge.types, ty).to_owned(),
        };
        let mut bytes = recased(&mut self.rng, &name).into_bytes();
        match self.rng.below(12) {
            0 => bytes.push(b'x'),
            1 => drop(bytes.pop()),
            2 => bytes.clear(),
            3 => bytes = self.rng.bytes(name.len()),
            // what differs only in the bit of the case, but is no letter
            4 => bytes.iter_mut().filter(|b| !b.is_ascii_alphabetic()).for_each(|b| *b ^= 0x20),
            _ => {}
        }
        bytes
    }
}
