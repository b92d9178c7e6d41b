//! Questions about types with the refusal that the document gives them, before a build, after one, and after a refused
//! one; and what is no question at all. The numbers 15, 16, 23 and 24 of "Refusal numbers" in document 01.

use super::exact::{Asked, declared, question};
use crate::book::{self, Places};
use crate::cases::Case;
use crate::config::{MemberConfig, TypeConfig};
use crate::describe::atomics;
use crate::judge::build_question;

/// Words that no type has, whatever the book.
const NO_TYPES: [u16; 9] = [0, 0xC0, 0xCC, 0xD0, 0xD5, 0x1C1, 0x7FFF, 0x80C8, 0xFFFF];
const BOOL: u16 = 0xC1;
const SINT: u16 = 0xC2;
const DINT: u16 = 0xC4;

pub(super) fn all() -> Vec<Case> {
    let mut asked = Asked::default();
    no_tables(&mut asked);
    let chan = [("Good", "BOOL"), ("Live", "BOOL"), ("Level", "INT")].map(|(name, t)| MemberConfig::new(name, t));
    let types = [TypeConfig::udt("Chan", chan), TypeConfig::udt("Nothing", []), TypeConfig::string("Text", 20)];
    asked.judged(build(&types));
    no_type(&mut asked, types.len() as u16);
    templates(&mut asked);
    shapes(&mut asked);
    no_questions(&mut asked);
    asked.refused(10, 0, build(&[TypeConfig::udt("Loop", [MemberConfig::new("a", "Loop")])]));
    no_tables(&mut asked);
    asked.cases
}

fn build(types: &[TypeConfig]) -> Vec<u8> {
    build_question(&book::encode(types, Places::Apart).expect("it can be said"))
}

fn template(word: u16, room: u32) -> Vec<u8> {
    question(3, &[&word.to_le_bytes()[..], &room.to_le_bytes()].concat())
}

fn shape(word: u16, lengths: &[u32]) -> Vec<u8> {
    let lengths_bytes = lengths.iter().flat_map(|n| n.to_le_bytes());
    let head = word.to_le_bytes().into_iter().chain([lengths.len() as u8]);
    question(4, &head.chain(lengths_bytes).collect::<Vec<u8>>())
}

fn header(word: u16) -> Vec<u8> {
    question(8, &word.to_le_bytes())
}

/// Where nothing is built: atomics alone are known.
fn no_tables(asked: &mut Asked) {
    asked.refused(15, 0, question(2, &[0, 0]));
    asked.refused(15, 0, template(0x8000, 1_000));
    asked.refused(15, 0, shape(0x8000, &[]));
    asked.refused(15, 0, header(0x8000));
    asked.refused(15, 0, question(9, &[0, 0x80, 0, 0, 0, 0, 0, 0, 0, 0]));
    asked.refused(15, 0, question(10, b"TIMER"));
    asked.judged(shape(DINT, &[2, 3]));
    asked.judged(header(DINT));
    asked.judged(question(10, b"dint"));
}

/// 15 of every kind. It goes before the others.
fn no_type(asked: &mut Asked, types: u16) {
    for number in [4 + types, 0x7FFF, 0x8000, 0xFFFF] {
        asked.refused(15, 0, question(2, &number.to_le_bytes()));
    }
    for word in NO_TYPES.into_iter().chain([0x8000 + 4 + types]) {
        asked.refused(15, 0, template(word, 0));
        asked.refused(15, 0, shape(word, &[0, 1, 1, 1]));
        asked.refused(15, 0, header(word));
    }
    for a in atomics() {
        asked.refused(15, 0, template(a.code().into(), 1_000));
    }
    let long = "n".repeat(41);
    for name in ["", "Chan0", "Cha", "DINT ", "\u{e9}", "Chan;n", &long] {
        asked.refused(15, 0, question(10, name.as_bytes()));
    }
    asked.refused(15, 0, question(10, &[0xFF]));
    asked.refused(15, 0, question(10, b"C\x00an"));
}

/// 16: a room one byte too short, and none. The document says that Chan's template has 80 bytes.
fn templates(asked: &mut Asked) {
    asked.judged(template(declared(0), 80));
    for word in (0x8000..0x8004).chain([declared(0), declared(1), declared(2)]) {
        asked.refused(16, 0, template(word, 0));
    }
    asked.refused(16, 0, template(declared(0), 79));
    asked.refused(16, 0, template(declared(0), 79 - 16));
}

/// 23, and then 24.
fn shapes(asked: &mut Asked) {
    let (chan, nothing, most) = (declared(0), declared(1), u32::MAX);
    let wrong: [&[u32]; 5] = [&[0], &[1, 0], &[1, 1, 0], &[1; 4], &[0, most, most]];
    for lengths in wrong {
        for word in [DINT, BOOL, chan, nothing] {
            asked.refused(23, 0, shape(word, lengths));
        }
    }
    asked.refused(23, 0, shape(DINT, &[1; 255]));
    for lengths in [&[32, 32][..], &[1, 1, 1], &[most, most]] {
        asked.refused(23, 0, shape(BOOL, lengths));
    }
    for length in [1, 31, 32, 33, 1 << 29] {
        asked.judged(shape(BOOL, &[length]));
    }
    for length in [(1 << 29) + 1, most - 31, most - 30, most] {
        asked.refused(24, 0, shape(BOOL, &[length]));
    }
    for (word, length) in [(SINT, 1 << 26), (DINT, 1 << 24), (chan, 1 << 24)] {
        asked.judged(shape(word, &[length]));
        asked.refused(24, 0, shape(word, &[length + 1]));
        asked.refused(24, 0, shape(word, &[length, 2]));
        asked.refused(24, 0, shape(word, &[most, most]));
        asked.refused(24, 0, shape(word, &[most, most, most]));
    }
    asked.judged(shape(nothing, &[most, most, 1]));
    asked.refused(24, 0, shape(nothing, &[most, most, 2]));
    asked.refused(24, 0, shape(nothing, &[1 << 22, 1 << 21, 1 << 21]));
}

/// Unknown kinds, and questions too short for their fields.
fn no_questions(asked: &mut Asked) {
    let kinds = [&[][..], &[0], &[254], &[255, 1, 2]];
    let short: [&[u8]; 8] = [
        &[1],
        &[1, 1, 0, 2, 0, 3, 0, 4],
        &[2],
        &[2, 0],
        &[3, 4, 0x80, 0, 1, 0],
        &[4, 0xC4, 0],
        &[4, 0xC4, 0, 1, 0],
        &[8, 4],
    ];
    for bytes in kinds.into_iter().chain(short) {
        asked.refused(255, 0, bytes.to_vec());
    }
}
