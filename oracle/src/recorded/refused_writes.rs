//! Writings with the refusal and the place that the document gives them: 15, 14, 17, and then the first bad entry with
//! 18 to 21; and some that the original cannot judge. The paragraphs "Writing" and "Refusal numbers" of document 01.

use super::exact::{Asked, declared, question};
use crate::book::{self, Places};
use crate::cases::Case;
use crate::config::{MemberConfig, TypeConfig};
use crate::describe::atomics;
use crate::judge::build_question;
use crate::model::Atomic;
use crate::stream::Entry::{self, ArrayClose, ArrayOpen, Bool, Close, LReal, Member, Null, Open, Real, Signed, Text};
use crate::stream::{self, Entry::Unsigned};

const BOOL: u16 = 0xC1;
const SINT: u16 = 0xC2;
const DINT: u16 = 0xC4;
const REAL: u16 = 0xCA;
const LREAL: u16 = 0xCB;
const BYTE: u16 = 0xD1;
const WORD: u16 = 0xD2;

/// What the images are filled with, so that a bit that is set or cleared shows.
const FILL: u8 = 0xA5;

/// A value that is written: its type, its count and how many bytes it has.
#[derive(Clone, Copy)]
struct Value(u16, u64, usize);

impl Value {
    fn image(self) -> Vec<u8> {
        vec![FILL; self.2]
    }

    fn question(self, stream: &[u8]) -> Vec<u8> {
        let Value(word, count, long) = self;
        let head = [&word.to_le_bytes()[..], &count.to_le_bytes(), &(long as u32).to_le_bytes()].concat();
        question(6, &[&head[..], &self.image(), stream].concat())
    }

    fn refused(self, asked: &mut Asked, number: u8, place: u32, entries: &[Entry]) {
        self.malformed(asked, number, place, &stream::encode(entries));
    }

    fn malformed(self, asked: &mut Asked, number: u8, place: u32, stream: &[u8]) {
        asked.kept(number, place, self.question(stream), self.image());
    }

    fn given(self, asked: &mut Asked, entries: &[Entry], image: &[u8]) {
        asked.given(self.question(&stream::encode(entries)), image);
    }
}

/// Chan of the document, 4 bytes; a hidden host is its member 0.
const CHAN: Value = Value(0x8004, 0, 4);
const CHANS: Value = Value(0x8004, 2, 8);
/// A string of 5, 12 bytes.
const TEXT: Value = Value(0x8005, 0, 12);
const TEXTS: Value = Value(0x8005, 2, 24);
/// Chan, two Chan and the string.
const NEST: Value = Value(0x8006, 0, 24);
/// A string of 256, for a text of every byte.
const LONG: Value = Value(0x8007, 0, 260);

pub(super) fn all() -> Vec<Case> {
    let mut asked = Asked::default();
    asked.refused(1, 0, build_question(&[]));
    CHAN.refused(&mut asked, 15, 0, &[Null]);
    asked.judged(Value(DINT, 0, 4).question(&stream::encode(&[Signed(-2)])));
    let chan = [("Good", "BOOL"), ("Live", "BOOL"), ("Level", "INT")].map(|(name, t)| MemberConfig::new(name, t));
    let nest = [
        MemberConfig::new("one", "Chan"),
        MemberConfig::array("two", "Chan", 2),
        MemberConfig::new("text", "Text"),
    ];
    let types = [
        TypeConfig::udt("Chan", chan),
        TypeConfig::string("Text", 5),
        TypeConfig::udt("Nest", nest),
        TypeConfig::string("Long", 256),
    ];
    asked.judged(build_question(&book::encode(&types, Places::Apart).expect("it can be said")));
    before_the_entries(&mut asked);
    malformed(&mut asked);
    missing_and_left_over(&mut asked);
    misfits(&mut asked);
    bit_strings(&mut asked);
    structures(&mut asked);
    ranges(&mut asked);
    past_the_last_place(&mut asked);
    too_long(&mut asked);
    taken(&mut asked);
    asked.cases
}

/// 15 before 14 before 17 before 18, and questions that are none.
fn before_the_entries(asked: &mut Asked) {
    for word in [0, 0xC0, 0xD5, declared(4), 0xFFFF] {
        Value(word, 0, 3).malformed(asked, 15, 0, &[]);
    }
    for value in [Value(0x8004, 0, 3), Value(0x8004, 0, 5), Value(DINT, 2, 4), Value(SINT, u64::MAX, 0)] {
        value.malformed(asked, 14, 0, &[1, 2, 3]);
    }
    CHAN.malformed(asked, 17, 0, &[]);
    CHAN.malformed(asked, 17, 0, &[[1, 0, 0, 0].to_vec(), vec![0; 11]].concat());
    let whole = CHAN.question(&stream::encode(&[Null]));
    for long in [1, 2, 11, 14, 18] {
        asked.refused(255, 0, whole[..long].to_vec());
    }
}

/// 17: every part of a stream's form.
fn malformed(asked: &mut Asked) {
    let good = stream::encode(&[ArrayOpen, Text(b"ab".to_vec()), Text(b"c".to_vec()), ArrayClose]);
    asked.judged(TEXTS.question(&good));
    for long in [0, 3, 4, 15, 51, 52, 54] {
        TEXTS.malformed(asked, 17, 0, &good[..long]);
    }
    TEXTS.malformed(asked, 17, 0, &[&good[..], &[0]].concat());
    // the number of entries, a kind, its zeros, a payload that is not used, a place, a length
    let spoiled = [(0, 3), (0, 5), (3, 1), (4, 12), (4, 255), (5, 1), (7, 1), (8, 1), (15, 1)];
    let texts = [(20, 1), (32, 0), (32, 1), (32, 3), (36, 0), (36, 2), (24, 3), (39, 128)];
    for (at, byte) in spoiled.into_iter().chain(texts) {
        let mut bytes = good.clone();
        bytes[at] = byte;
        TEXTS.malformed(asked, 17, 0, &bytes);
    }
    let bools = stream::encode(&[Bool(true)]);
    for (at, byte) in [(8, 2), (8, 255), (9, 1), (15, 128)] {
        let mut bytes = bools.clone();
        bytes[at] = byte;
        Value(BOOL, 0, 1).malformed(asked, 17, 0, &bytes);
    }
    for entry in [Real(1), Member(1)] {
        let mut bytes = stream::encode(&[entry]);
        bytes[12] = 1;
        Value(REAL, 0, 4).malformed(asked, 17, 0, &bytes);
    }
}

/// 18 at the entry count, also after a full array; 18 at the first entry too many.
fn missing_and_left_over(asked: &mut Asked) {
    let array = Value(SINT, 3, 3);
    for value in [Value(DINT, 0, 4), Value(WORD, 0, 2), array, CHAN, CHANS, TEXT, NEST] {
        value.refused(asked, 18, 0, &[]);
        value.refused(asked, 18, 1, &[Null, Null]);
    }
    array.refused(asked, 18, 1, &[ArrayOpen]);
    array.refused(asked, 18, 3, &[ArrayOpen, Signed(1), Null]);
    array.refused(asked, 18, 4, &[ArrayOpen, Signed(1), Signed(2), Signed(3)]);
    Value(BYTE, 0, 1).refused(asked, 18, 1, &[ArrayOpen]);
    Value(BYTE, 0, 1).refused(asked, 18, 9, &bools(8)[..9]);
    CHAN.refused(asked, 18, 1, &[Open]);
    CHAN.refused(asked, 18, 2, &[Open, Member(1)]);
    CHAN.refused(asked, 18, 3, &[Open, Member(3), Signed(1)]);
    CHANS.refused(asked, 18, 3, &[ArrayOpen, Null, Null]);
    Value(DINT, 0, 4).refused(asked, 18, 1, &[Signed(1), ArrayClose]);
    CHAN.refused(asked, 18, 2, &[Open, Close, Close]);
    array.refused(asked, 18, 2, &[ArrayOpen, ArrayClose, ArrayClose]);
}

/// 18: another kind of entry than the one that an atomic, a string, an array or a structure takes.
fn misfits(asked: &mut Asked) {
    for a in atomics() {
        let long = a.size();
        let value = Value(a.code().into(), 0, long);
        for entry in [Text(vec![]), Member(0), Open, Close, ArrayClose] {
            value.refused(asked, 18, 0, &[entry]);
        }
        for (entry, taker) in [(Bool(true), Atomic::Bool), (Real(0), Atomic::Real), (LReal(0), Atomic::LReal)] {
            if a != taker {
                value.refused(asked, 18, 0, &[entry]);
            }
        }
        if !a.has_bits() {
            value.refused(asked, 18, 0, &[Signed(0)]);
            value.refused(asked, 18, 0, &[Unsigned(0)]);
        }
        if !a.is_bit_string() {
            value.refused(asked, 18, 0, &[ArrayOpen, ArrayClose]);
        }
        let array = Value(a.code().into(), 2, 2 * long);
        for entry in [Bool(true), Signed(0), Real(0), LReal(0), Open] {
            array.refused(asked, 18, 0, &[entry]);
        }
        array.refused(asked, 18, 1, &[ArrayOpen, ArrayOpen, ArrayClose, ArrayClose]);
    }
    for entry in [Signed(1), Bool(true), Open, ArrayOpen, Member(0)] {
        TEXT.refused(asked, 18, 0, &[entry]);
    }
    TEXTS.refused(asked, 18, 0, &[Text(b"x".to_vec())]);
}

fn bools(n: usize) -> Vec<Entry> {
    [vec![ArrayOpen], vec![Bool(true); n], vec![ArrayClose]].concat()
}

/// 18: null among bools, mixtures, an array as an element of an array of bit strings.
fn bit_strings(asked: &mut Asked) {
    let (byte, words) = (Value(BYTE, 0, 1), Value(WORD, 3, 6));
    byte.refused(asked, 18, 2, &[ArrayOpen, Bool(true), Null, ArrayClose]);
    byte.refused(asked, 18, 1, &[ArrayOpen, Signed(1), ArrayClose]);
    byte.refused(asked, 18, 1, &[ArrayOpen, ArrayOpen, ArrayClose, ArrayClose]);
    words.refused(asked, 18, 2, &[ArrayOpen, Bool(true), Null, ArrayClose]);
    words.refused(asked, 18, 2, &[ArrayOpen, Bool(true), Unsigned(1), ArrayClose]);
    words.refused(asked, 18, 2, &[ArrayOpen, Unsigned(1), Bool(true), ArrayClose]);
    words.refused(asked, 18, 2, &[ArrayOpen, Null, Bool(true), ArrayClose]);
    words.refused(asked, 18, 2, &[ArrayOpen, Signed(1), ArrayOpen, Bool(true), ArrayClose, ArrayClose]);
}

/// 18 in a structure: what is no member and no close, a hidden member, one too large; and deeper.
fn structures(asked: &mut Asked) {
    for entry in [Signed(1), Bool(true), Text(vec![]), ArrayOpen, Member(1), Close] {
        CHAN.refused(asked, 18, 0, &[entry]);
    }
    for entry in [Null, Signed(1), Open, ArrayOpen, ArrayClose, Member(0), Member(4), Member(u32::MAX)] {
        CHAN.refused(asked, 18, 1, &[Open, entry, Null, Close]);
    }
    CHAN.refused(asked, 18, 2, &[Open, Member(1), Signed(1), Close]);
    CHAN.refused(asked, 18, 4, &[Open, Member(3), Signed(1), Member(3), Bool(true), Close]);
    CHANS.refused(asked, 18, 1, &[ArrayOpen, Signed(1), ArrayClose]);
    CHANS.refused(asked, 18, 3, &[ArrayOpen, Null, Open, ArrayClose]);
    NEST.refused(asked, 18, 6, &[Open, Member(0), Open, Member(2), Null, Close, Member(3), Null, Close]);
    NEST.refused(asked, 18, 3, &[Open, Member(0), Open, Member(0), Null, Close, Close]);
    NEST.refused(asked, 18, 2, &[Open, Member(1), Open, Close, Close]);
    NEST.refused(asked, 18, 2, &[Open, Member(2), Open, Close, Close]);
}

/// 19: the ends of every range, as signed and as unsigned numbers, alone and deep in a value.
fn ranges(asked: &mut Asked) {
    for a in atomics().filter(|a| a.has_bits()) {
        let value = Value(a.code().into(), 0, a.size());
        let bits = 8 * a.size() as u32;
        let signed = matches!(a, Atomic::SInt | Atomic::Int | Atomic::DInt | Atomic::LInt);
        let unsigned = !signed && !a.is_bit_string();
        let low = if unsigned { 0 } else { -1i128 << (bits - 1) };
        let high = if signed { (1i128 << (bits - 1)) - 1 } else { (1i128 << bits) - 1 };
        for number in [low - 1, high + 1, i128::from(i64::MIN), i128::from(i64::MAX), i128::from(u64::MAX)] {
            let fits = (low..=high).contains(&number);
            for entry in [i64::try_from(number).ok().map(Signed), u64::try_from(number).ok().map(Unsigned)] {
                match entry {
                    Some(entry) if fits => asked.judged(value.question(&stream::encode(&[entry]))),
                    Some(entry) => value.refused(asked, 19, 0, &[entry]),
                    None => {}
                }
            }
        }
    }
    Value(SINT, 3, 3).refused(asked, 19, 3, &[ArrayOpen, Signed(1), Null, Signed(300), ArrayClose]);
    Value(WORD, 3, 6).refused(asked, 19, 1, &[ArrayOpen, Signed(-32_769), ArrayClose]);
    CHANS.refused(asked, 19, 7, &[
        ArrayOpen, Open, Member(1), Bool(false), Close, Open, Member(3), Signed(40_000), Close, ArrayClose,
    ]);
}

/// 20 before 18 and 19, for any entry but the close.
fn past_the_last_place(asked: &mut Asked) {
    let array = Value(SINT, 3, 3);
    for entry in [Signed(4), Signed(300), Null, Bool(true), Text(vec![]), Open, Close, ArrayOpen, Member(0)] {
        array.refused(asked, 20, 4, &[ArrayOpen, Signed(1), Null, Signed(3), entry.clone(), ArrayClose]);
        Value(BYTE, 0, 1).refused(asked, 20, 9, &[&bools(8)[..9], &[entry.clone()]].concat());
        Value(BYTE, 2, 2).refused(asked, 20, 17, &[&bools(16)[..17], &[entry.clone()]].concat());
        Value(BYTE, 2, 2).refused(asked, 20, 3, &[ArrayOpen, Null, Signed(1), entry.clone()]);
        CHANS.refused(asked, 20, 3, &[ArrayOpen, Null, Null, entry.clone(), ArrayClose]);
        NEST.refused(asked, 20, 6, &[Open, Member(1), ArrayOpen, Open, Close, Null, entry, ArrayClose, Close]);
    }
}

/// 21, alone and deep in a value.
fn too_long(asked: &mut Asked) {
    asked.judged(TEXT.question(&stream::encode(&[Text(vec![b'x'; 5])])));
    asked.judged(LONG.question(&stream::encode(&[Text((0..=255).collect())])));
    TEXT.refused(asked, 21, 0, &[Text(vec![b'x'; 6])]);
    TEXTS.refused(asked, 21, 2, &[ArrayOpen, Text(b"abc".to_vec()), Text(vec![0; 6]), ArrayClose]);
    NEST.refused(asked, 21, 2, &[Open, Member(2), Text(vec![b'x'; 300]), Signed(1)]);
}

/// What the document takes and the original does not say, or says otherwise: null for a BOOL member and for the whole,
/// a member given twice, empty arrays over bit strings.
fn taken(asked: &mut Asked) {
    CHAN.given(asked, &[Null], &[FILL; 4]);
    CHAN.given(asked, &[Open, Member(1), Null, Member(2), Bool(true), Close], &[FILL | 2, FILL, FILL, FILL]);
    let twice = [Open, Member(3), Signed(-1), Member(1), Bool(false), Member(3), Signed(0x1234), Close];
    CHAN.given(asked, &twice, &[FILL & 0xFE, FILL, 0x34, 0x12]);
    CHAN.given(asked, &[Open, Member(3), Signed(7), Member(3), Null, Close], &[FILL, FILL, 7, 0]);
    Value(WORD, 0, 2).given(asked, &[ArrayOpen, ArrayClose], &[0, 0]);
    Value(WORD, 0, 2).given(asked, &[ArrayOpen, Bool(true), ArrayClose], &[1, 0]);
    Value(WORD, 2, 4).given(asked, &[ArrayOpen, ArrayClose], &[FILL; 4]);
    Value(WORD, 2, 4).given(asked, &[ArrayOpen, Bool(false), ArrayClose], &[FILL & 0xFE, FILL, FILL, FILL]);
    Value(REAL, 0, 4).given(asked, &[Real(0x7FC0_0001)], &0x7FC0_0001u32.to_le_bytes());
    Value(LREAL, 0, 8).given(asked, &[LReal(0x7FF0_0000_0000_0000)], &0x7FF0_0000_0000_0000u64.to_le_bytes());
}
