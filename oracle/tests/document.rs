//! The examples and reference cases that document 01 prints, asked of the original through the judge.

use oracle::book::{self, Places};
use oracle::config::{MemberConfig, TypeConfig};
use oracle::frames::Fields;
use oracle::judge::{Expect, Judge, build_question};
use oracle::stream;

fn ask(judge: &mut Judge, question: &[u8]) -> Option<Vec<u8>> {
    match judge.answer(question).expect("the question is whole") {
        Expect::Bytes(bytes) => Some(bytes),
        _ => None,
    }
}

fn built(types: &[TypeConfig]) -> Option<Judge> {
    let question = build_question(&book::encode(types, Places::Apart).expect("it can be said"));
    let mut judge = Judge::default();
    ask(&mut judge, &question).map(|_| judge)
}

fn members(parts: &[(&str, &str, u32)]) -> Vec<MemberConfig> {
    parts.iter().map(|(name, data_type, dim)| MemberConfig::array(name, data_type, *dim)).collect()
}

fn row_of(data_type: &str, n: usize) -> Vec<MemberConfig> {
    (0..n).map(|i| MemberConfig::new(&format!("b{i}"), data_type)).collect()
}

/// The lines that the document prints for a type, from the bytes of an answer of kind 2.
fn listing(judge: &mut Judge, number: u16) -> Vec<String> {
    let answer = ask(judge, &[&[2], &number.to_le_bytes()[..]].concat()).expect("there is such a type");
    lines(&mut Fields(&answer)).expect("the answer is whole")
}

fn name(f: &mut Fields) -> Option<String> {
    let length = f.u8()?;
    Some(String::from_utf8_lossy(f.bytes(length.into())?).into_owned())
}

fn lines(f: &mut Fields) -> Option<Vec<String>> {
    let (type_name, id, _handle, size, _kind) = (name(f)?, f.u16()?, f.u16()?, f.u32()?, f.u8()?);
    let (template, _words, waste, count) = (f.u32()?, f.u32()?, f.u64()?, f.u16()?);
    let mut lines = vec![format!("type {type_name} {id} {size} {count} {template} {waste}")];
    for i in 0..count {
        let (member, word, dim, offset) = (name(f)?, f.u16()?, f.u32()?, f.u32()?);
        let (bit, flags, _access) = (f.u8()?, f.u8()?, f.u8()?);
        let bit = if bit == 255 { "-".to_owned() } else { bit.to_string() };
        let hidden = if flags & 1 == 1 { "h" } else { "v" };
        lines.push(format!("{i} {hidden} {word:#x} {dim} {offset} {bit} {member}"));
    }
    Some(lines)
}

fn chan() -> Judge {
    let parts = members(&[("Good", "BOOL", 0), ("Live", "BOOL", 0), ("Level", "INT", 0)]);
    built(&[TypeConfig::udt("Chan", parts)]).expect("Chan is accepted")
}

#[test]
fn chan_is_as_printed() {
    let expected = [
        "type Chan 256 4 4 80 14",
        "0 h 0xc2 0 0 - ZZZZZZZZZZChan0",
        "1 v 0xc1 0 0 0 Good",
        "2 v 0xc1 0 0 1 Live",
        "3 v 0xc3 0 2 - Level",
    ];
    assert_eq!(listing(&mut chan(), 4), expected);
    let template = ask(&mut chan(), &[3, 4, 0x80, 80, 0, 0, 0]).expect("the room is just enough");
    assert_eq!(template.len(), 80);
    assert!(ask(&mut chan(), &[3, 4, 0x80, 79, 0, 0, 0]).is_none());
}

#[test]
fn chan_is_read_as_printed() {
    let image = [0x03, 0x7F, 0xFE, 0xFF];
    let read = [&[5, 4, 0x80][..], &[0; 8], &[0xFF; 4], &image].concat();
    let stream = ask(&mut chan(), &read).expect("it can be read");
    let entries = stream::decode(&stream).expect("it is a stream");
    assert_eq!(entries.len(), 8);
    assert_eq!(stream::text(&entries), "{ .1 true .2 true .3 s-2 }");
    let normal = [&[9, 4, 0x80][..], &[0; 8], &image].concat();
    assert_eq!(ask(&mut chan(), &normal), Some(vec![0x03, 0x00, 0xFE, 0xFF]));
}

/// Size and number of members of the one type of a book.
fn size_and_count(config: TypeConfig) -> Option<(u32, u16)> {
    let first = listing(&mut built(&[config])?, 4).remove(0);
    let mut words = first.split(' ').skip(3);
    let mut number = || words.next().and_then(|w| w.parse().ok());
    Some((number()?, number()? as u16))
}

#[test]
fn reference_cases() {
    let udt = |m: Vec<MemberConfig>| size_and_count(TypeConfig::udt("T", m));
    assert_eq!(udt(vec![]), Some((0, 0)));
    assert_eq!(udt(row_of("BOOL", 8)), Some((4, 9)));
    assert_eq!(udt(row_of("BOOL", 9)), Some((4, 11)));
    assert_eq!(udt(members(&[("a", "BOOL", 0), ("b", "SINT", 0), ("c", "BOOL", 0)])), Some((4, 5)));
    assert_eq!(udt(members(&[("a", "BOOL", 32)])), Some((4, 1)));
    assert_eq!(udt(members(&[("a", "BOOL", 33)])), Some((8, 1)));
    assert_eq!(size_and_count(TypeConfig::aoi("A", row_of("BOOL", 30))), Some((4, 33)));
    assert_eq!(size_and_count(TypeConfig::aoi("A", row_of("BOOL", 31))), Some((8, 35)));
    assert_eq!(size_and_count(TypeConfig::string("S", 82)), Some((88, 2)));
    assert_eq!(udt(members(&[("a", "SINT", 1 << 26)])), Some((1 << 26, 1)));
    assert_eq!(udt(members(&[("a", "SINT", (1 << 26) + 1)])), None);
    assert_eq!(udt(members(&[("a", "SINT", 1 << 26), ("b", "BOOL", 0)])), Some(((1 << 26) + 4, 3)));
}

#[test]
fn a_length_above_the_capacity_reads_all() {
    let mut judge = built(&[]).expect("no types are accepted");
    let image = [vec![0xFF; 4], (0..84).collect()].concat();
    let text = ask(&mut judge, &[&[7, 3, 0x80], &image[..]].concat()).expect("STRING has a text");
    assert_eq!(text, (0..82).collect::<Vec<u8>>());
}

#[test]
fn a_refused_build_leaves_no_types() {
    let mut judge = chan();
    let circular = TypeConfig::udt("Loop", members(&[("a", "Loop", 0)]));
    let question = build_question(&book::encode(&[circular], Places::Apart).expect("it can be said"));
    assert!(ask(&mut judge, &question).is_none());
    assert!(ask(&mut judge, &[2, 0, 0]).is_none());
    assert!(ask(&mut judge, b"\x0ATIMER").is_none());
    assert_eq!(ask(&mut judge, b"\x0Adint"), Some(vec![0xC4, 0]));
}
