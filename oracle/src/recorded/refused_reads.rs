//! Readings and texts with the refusal that the document gives them: 15, then 14, then 16.
//! The paragraphs "Reading" and "Refusal numbers" of document 01.

use super::exact::{Asked, declared, question};
use crate::book::{self, Places};
use crate::cases::Case;
use crate::config::{MemberConfig, TypeConfig};
use crate::describe::atomics;
use crate::judge::build_question;

/// The word of STRING.
const STRING: u16 = 0x8003;
/// As much room as a question can ask for.
const ALL: u32 = 1_048_000;

pub(super) fn all() -> Vec<Case> {
    let mut asked = Asked::default();
    asked.refused(15, 0, read(0x8000, 0, ALL, &[]));
    asked.refused(15, 0, text(STRING, &[0; 88]));
    let chan = [("Good", "BOOL"), ("Live", "BOOL"), ("Level", "INT")].map(|(name, t)| MemberConfig::new(name, t));
    let types = [TypeConfig::udt("Chan", chan), TypeConfig::udt("Nothing", []), TypeConfig::string("Text", 20)];
    asked.judged(build_question(&book::encode(&types, Places::Apart).expect("it can be said")));
    no_type(&mut asked);
    wrong_length(&mut asked);
    no_room(&mut asked);
    asked.refused(255, 0, read(declared(0), 0, ALL, &[])[..14].to_vec());
    asked.refused(255, 0, vec![7, 3]);
    asked.cases
}

fn read(word: u16, count: u64, room: u32, image: &[u8]) -> Vec<u8> {
    question(5, &[&word.to_le_bytes()[..], &count.to_le_bytes(), &room.to_le_bytes(), image].concat())
}

fn text(word: u16, image: &[u8]) -> Vec<u8> {
    question(7, &[&word.to_le_bytes()[..], image].concat())
}

/// 15, also where the image and the room are wrong too.
fn no_type(asked: &mut Asked) {
    for word in [0, 0xC0, 0xCC, 0xD5, 0x1C1, declared(3), 0xFFFF] {
        asked.refused(15, 0, read(word, 0, 0, &[]));
        asked.refused(15, 0, text(word, &[0; 88]));
    }
    for a in atomics() {
        asked.refused(15, 0, text(a.code().into(), &[0; 88]));
    }
    for word in [0x8000, 0x8001, 0x8002, declared(0), declared(1)] {
        asked.refused(15, 0, text(word, &[0; 12]));
    }
}

/// 14, whatever the room, and where the product of size and count is past 64 bits.
fn wrong_length(asked: &mut Asked) {
    let chan = declared(0);
    for (word, count, long) in [(chan, 0, 3), (chan, 0, 5), (chan, 1, 0), (chan, 2, 4), (chan, 2, 9), (0xC4, 0, 3)] {
        asked.refused(14, 0, read(word, count, 0, &vec![0xFF; long]));
    }
    for (word, count) in [(0xC2, u64::MAX), (0xC5, 1 << 61), (0xC4, 1 << 62), (chan, 1 << 62), (STRING, 1 << 61)] {
        asked.refused(14, 0, read(word, count, ALL, &[]));
    }
    asked.refused(14, 0, read(declared(1), 0, ALL, &[0]));
    asked.refused(14, 0, read(declared(1), u64::MAX, ALL, &[0]));
    for (word, long) in [(STRING, 87), (STRING, 89), (declared(2), 23), (declared(2), 0)] {
        asked.refused(14, 0, text(word, &vec![0; long]));
    }
}

/// 16: a room one byte too short, and none. Chan's eight entries take 100 bytes.
fn no_room(asked: &mut Asked) {
    let image = [0x03, 0x7F, 0xFE, 0xFF];
    asked.judged(read(declared(0), 0, 100, &image));
    for room in [0, 3, 4, 51, 99] {
        asked.refused(16, 0, read(declared(0), 0, room, &image));
    }
    let mut string = vec![b'g'; 88];
    string[..4].copy_from_slice(&80u32.to_le_bytes());
    asked.judged(read(STRING, 0, 96, &string));
    asked.refused(16, 0, read(STRING, 0, 95, &string));
    string[..4].fill(0xFF);
    asked.judged(read(STRING, 0, 98, &string));
    asked.judged(text(STRING, &string));
    asked.refused(16, 0, read(STRING, 0, 97, &string));
    for count in [u64::MAX, 1 << 63, 1 << 32, 100_000] {
        asked.refused(16, 0, read(declared(1), count, ALL, &[]));
    }
    asked.judged(read(declared(1), 3, ALL, &[]));
}
