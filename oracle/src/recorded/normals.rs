//! Normal images: the refusals that the document gives them, 15 and then 14; and the cases of its paragraph
//! "Normal image", one by one.

use super::exact::{Asked, declared, question};
use crate::book::{self, Places};
use crate::cases::Case;
use crate::config::{MemberConfig, TypeConfig};
use crate::judge::build_question;

const BOOL: u16 = 0xC1;
const DINT: u16 = 0xC4;
/// The words of TIMER and STRING.
const TIMER: u16 = 0x8000;
const STRING: u16 = 0x8003;

pub(super) fn all() -> Vec<Case> {
    let mut asked = Asked::default();
    asked.given(normal(DINT, 0, &[1, 2, 3, 4]), &[1, 2, 3, 4]);
    asked.judged(build_question(&book::encode(&types(), Places::Apart).expect("it can be said")));
    refused(&mut asked);
    given(&mut asked);
    asked.refused(255, 0, normal(declared(0), 0, &[])[..10].to_vec());
    asked.cases
}

/// Chan; a structure without members; one with gaps, a nested array and BOOLs on both sides; an AOI; a string of 2.
fn types() -> Vec<TypeConfig> {
    let m = |name: &str, t: &str| MemberConfig::new(name, t);
    let mut chans = m("Chans", "Chan");
    chans.dim = 2;
    vec![
        TypeConfig::udt("Chan", [m("Good", "BOOL"), m("Live", "BOOL"), m("Level", "INT")]),
        TypeConfig::udt("Nothing", []),
        TypeConfig::udt("Gaps", [m("a", "BOOL"), m("b", "DINT"), m("c", "SINT"), chans, m("d", "BOOL")]),
        TypeConfig::aoi("Block", [m("x", "BOOL"), m("y", "INT"), m("z", "BOOL")]),
        TypeConfig::string("Two", 2),
    ]
}

fn normal(word: u16, count: u64, image: &[u8]) -> Vec<u8> {
    question(9, &[&word.to_le_bytes()[..], &count.to_le_bytes(), image].concat())
}

fn refused(asked: &mut Asked) {
    for word in [0, 0xC0, 0xCC, 0xD5, 0x1C1, declared(5), 0xFFFF] {
        asked.refused(15, 0, normal(word, 0, &[]));
    }
    let chan = declared(0);
    for (word, count, long) in [(chan, 0, 3), (chan, 0, 5), (chan, 1, 0), (chan, 2, 4), (chan, 2, 9), (DINT, 0, 3)] {
        asked.refused(14, 0, normal(word, count, &vec![0xFF; long]));
    }
    for (word, count) in [(BOOL, u64::MAX), (DINT, 1 << 62), (chan, 1 << 62), (STRING, 1 << 61)] {
        asked.refused(14, 0, normal(word, count, &[]));
    }
    asked.refused(14, 0, normal(declared(1), u64::MAX, &[0]));
}

/// Each answer is the document's, written out; the original's must be the same.
fn given(asked: &mut Asked) {
    let ones = 0xFF;
    asked.given(normal(declared(0), 0, &[0x03, 0x7F, 0xFE, 0xFF]), &[0x03, 0x00, 0xFE, 0xFF]);
    asked.given(normal(declared(0), 2, &[0xFC, 1, 2, 3, ones, 4, 5, 6]), &[0, 0, 2, 3, 3, 0, 5, 6]);
    asked.given(normal(declared(1), 7, &[]), &[]);
    asked.given(normal(BOOL, 0, &[0x80]), &[1]);
    asked.given(normal(BOOL, 4, &[0, 1, 2, ones]), &[0, 1, 1, 1]);
    let block = [1, 0, 0, 0, ones, ones, ones, ones, ones, 0, 0, 0, 3, 0, ones, ones, 3, 0, ones, ones, 1, 0, 0, 0];
    asked.given(normal(declared(2), 0, &[ones; 24]), &block);
    asked.given(normal(declared(3), 0, &[ones; 8]), &[15, 0, 0, 0, ones, ones, 0, 0]);
    asked.given(normal(TIMER, 0, &[ones; 12]), &[[0, 0, 0, 0xE0].as_slice(), &[ones; 8]].concat());
    asked.given(normal(declared(4), 0, &[ones; 8]), &[2, 0, 0, 0, ones, ones, 0, 0]);
    asked.given(normal(declared(4), 0, &[1, 0, 0, 0, 65, 66, 67, 68]), &[1, 0, 0, 0, 65, 0, 0, 0]);
    asked.given(normal(declared(4), 0, &[0, 0, 0, 0x80, 65, 66, 67, 68]), &[2, 0, 0, 0, 65, 66, 0, 0]);
}
