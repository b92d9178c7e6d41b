//! Books with the refusal and the place that the document gives them: each number by itself, then two at once.
//! The table and the order of "Refusal numbers" in document 01.

use super::exact::{Asked, question};
use super::full;
use crate::book::{self, Places, access_text};
use crate::cases::Case;
use crate::config::{MemberConfig, TypeConfig};
use crate::describe::describe;
use crate::judge::{PREDEFINED, build_question};
use crate::model::{MAX_DATA_BYTES, Types};

/// The most bytes that a member may reach to.
const LIMIT: u32 = MAX_DATA_BYTES as u32;

pub(super) fn all() -> Vec<Case> {
    let mut asked = Asked::default();
    malformed(&mut asked);
    predefined_ids(&mut asked);
    for (number, types) in by_type().into_iter().chain(by_member()).chain(by_layout()).chain(two_at_once()) {
        asked.refused(number, 1, build(&types));
    }
    waiting(&mut asked);
    too_many(&mut asked);
    asked.cases
}

fn encoded(types: &[TypeConfig]) -> Vec<u8> {
    book::encode(types, Places::Shared).expect("it can be said")
}

fn build(types: &[TypeConfig]) -> Vec<u8> {
    build_question(&encoded(types))
}

fn m(name: &str, data_type: &str) -> MemberConfig {
    MemberConfig::new(name, data_type)
}

fn udt(members: &[MemberConfig]) -> TypeConfig {
    TypeConfig::udt("Second", members.to_vec())
}

fn with_id(id: u16, config: TypeConfig) -> TypeConfig {
    TypeConfig { template_id: Some(id), ..config }
}

/// A type that is added, and then the one that is refused: its place is 1.
fn after(config: TypeConfig) -> Vec<TypeConfig> {
    vec![TypeConfig::udt("First", [m("Level", "INT")]), config]
}

/// Two types with three members, and each way to spoil their book.
fn malformed(asked: &mut Asked) {
    let types = [TypeConfig::udt("Chan", [m("Good", "BOOL"), m("Level", "INT")]), udt(&[m("a", "TIMER")])];
    let good = book::encode(&types, Places::Apart).expect("it can be said");
    let end = good.len() as u32;
    asked.judged(build_question(&good));
    for length in [0, 3, 4, 35, 36, 83, 84, good.len() - 1] {
        asked.refused(1, 0, build_question(&good[..length]));
    }
    // the counts, and the fields of the first type's entry and of the first member's
    let (first, member, bodies) = (4, 36, 84u32);
    let bytes = [(0, 1), (0, 3), (2, 2), (2, 4), (first + 12, 1), (first + 12, 3), (first + 5, 8), (first + 5, 0x80)];
    let fields = [(first + 6, 1), (first + 7, 1), (first + 8, 1), (first + 11, 1), (first + 14, 1), (first + 15, 1)];
    for (at, byte) in bytes.into_iter().chain(fields).chain([(member + 6, 2), (member + 6, 255)]) {
        asked.refused(1, 0, spoiled(&good, at, &[byte]));
    }
    for at in [first, member, member + 12] {
        for place in [0, bodies - 1, end - 2, end, u32::MAX] {
            asked.refused(1, 0, spoiled(&good, at, &place.to_le_bytes()));
        }
    }
    no_length(asked, &good, first, member);
}

/// A length of 0 may lie at the bodies' end, and neither past it nor before them.
fn no_length(asked: &mut Asked, good: &[u8], first: usize, member: usize) {
    let empty = |at: usize, length: usize, place: u32| {
        let mut book = good.to_vec();
        book[length] = 0;
        spoiled(&book, at, &place.to_le_bytes())
    };
    let end = good.len() as u32;
    for place in [83, end + 1] {
        asked.refused(1, 0, empty(first, first + 4, place));
        asked.refused(1, 0, empty(member + 12, member + 5, place));
    }
    asked.refused(2, 0, empty(first, first + 4, end));
    asked.refused(2, 0, empty(member, member + 4, end));
    asked.refused(10, 0, empty(member + 12, member + 5, end));
}

/// The build of a book with some bytes put in its place.
fn spoiled(book: &[u8], at: usize, bytes: &[u8]) -> Vec<u8> {
    let mut book = book.to_vec();
    book[at..at + bytes.len()].copy_from_slice(bytes);
    build_question(&book)
}

/// Predefined ids, 22: distinct, 1..0xFFF, outside 0x100..0xEFF.
fn predefined_ids(asked: &mut Asked) {
    let book = encoded(&[TypeConfig::udt("Chan", [m("Good", "BOOL")])]);
    let with = |ids: [u16; 4], book: &[u8]| [&[1], ids.map(u16::to_le_bytes).as_flattened(), book].concat();
    for i in 0..4 {
        for id in [0, 0x100, 0xEFF, 0x1000, 0xFFFF, PREDEFINED[(i + 1) % 4], PREDEFINED[(i + 2) % 4]] {
            let mut ids = PREDEFINED;
            ids[i] = id;
            asked.refused(22, 0, with(ids, &book));
        }
    }
    asked.refused(22, 0, with([1, 2, 3, 3], &[]));
    for ids in [[1, 2, 3, 4], [0xFFF, 0xF00, 0xFF, 1]] {
        asked.given(with(ids, &book), &[5, 0]);
        for (i, id) in ids.into_iter().enumerate() {
            asked.given(question(2, &(i as u16).to_le_bytes()), &described(i, id));
        }
    }
}

/// What the original knows of a predefined type, under another id, which its template does not hold.
fn described(i: usize, id: u16) -> Vec<u8> {
    let types = Types::build(&[]).expect("no types are accepted");
    let mut bytes = describe(&types, i);
    let at = 1 + types.def(i).name.len();
    bytes[at..at + 2].copy_from_slice(&id.to_le_bytes());
    bytes
}

/// 2 to 7, for a type by itself. No book reaches 6: the tables are full long before the ids are.
fn by_type() -> Vec<(u8, Vec<TypeConfig>)> {
    let named = |name: &str| after(TypeConfig::udt(name, [m("a", "DINT")]));
    let given = |id: u16| after(with_id(id, udt(&[])));
    let string = |length: u32| after(TypeConfig::string("Second", length));
    let long = "n".repeat(41);
    let mut all: Vec<(u8, Vec<TypeConfig>)> = bad_names(&long).map(|name| (2, named(name))).to_vec();
    all.extend(["dint", "LWORD", "Bool", "Timer", "string", "FIRST"].map(|name| (3, named(name))));
    all.extend([0, 1, 0xFF, 0xF00, 0xF83, 0xFFF, 0x1100, 0xFFFF].map(|id| (4, given(id))));
    all.push((5, given(0x100)));
    all.push((5, vec![with_id(0xEFF, TypeConfig::udt("First", [])), with_id(0xEFF, udt(&[]))]));
    all.extend([0, LIMIT - 3, u32::MAX].map(|length| (7, string(length))));
    all.push((7, after(TypeConfig { members: vec![m("a", "SINT")], ..TypeConfig::string("Second", 20) })));
    all.push((7, after(TypeConfig { aoi: true, ..TypeConfig::string("Second", 20) })));
    all
}

/// No byte, one too many, and each way to leave 0x21..0x7E without `;`.
fn bad_names(long: &str) -> [&str; 7] {
    ["", long, "a b", "a;b", "a\u{7f}", "\u{1f}", "\u{e9}"]
}

/// 2, 8 and 9, for a member.
fn by_member() -> Vec<(u8, Vec<TypeConfig>)> {
    let long = "n".repeat(41);
    let named = |name: &str| after(udt(&[m("a", "BOOL"), m(name, "DINT")]));
    let mut all: Vec<(u8, Vec<TypeConfig>)> = bad_names(&long).map(|name| (2, named(name))).to_vec();
    let twice = [m("Level", "INT"), m("Live", "BOOL"), m("lEVEL", "BOOL")];
    all.push((8, named("a")));
    all.push((8, named("A")));
    all.push((8, after(TypeConfig::aoi("Second", twice))));
    all.push((9, after(udt(&[m("a", "BOOL"), m("b", "BOOL").local()]))));
    all.push((9, after(udt(&[m("b", "DINT").local(), m("a", "BOOL")]))));
    all
}

/// 11 and 12: access, and the end of a member.
fn by_layout() -> Vec<(u8, Vec<TypeConfig>)> {
    let access = |code: u8, data_type: &str| m("b", data_type).access(&access_text(code));
    let arrays = |parts: &[(&str, u32)]| {
        let member = |(i, (t, dim)): (usize, &(&str, u32))| MemberConfig::array(&format!("m{i}"), t, *dim);
        parts.iter().enumerate().map(member).collect::<Vec<_>>()
    };
    let mut all = Vec::new();
    for (code, data_type) in [(1, "BOOL"), (4, "DINT"), (255, "STRING"), (1, "First")] {
        all.push((11, after(udt(&[m("a", "BOOL"), access(code, data_type)]))));
        all.push((11, after(TypeConfig::aoi("Second", [access(code, data_type)]))));
    }
    let large: [&[(&str, u32)]; 7] = [
        &[("SINT", LIMIT + 1)],
        &[("LINT", LIMIT / 8 + 1)],
        &[("LREAL", u32::MAX)],
        &[("BOOL", (1 << 29) + 1)],
        &[("SINT", LIMIT - 3), ("DINT", 0)],
        &[("First", LIMIT / 4 + 1)],
        &[("SINT", LIMIT), ("BOOL", 0), ("SINT", 0)],
    ];
    all.extend(large.map(|parts| (12, after(udt(&arrays(parts))))));
    all.push((12, after(TypeConfig::aoi("Second", arrays(&[("SINT", LIMIT)])))));
    all
}

/// The document's order, in one type: its name, its id, its string, its members, their layout.
fn two_at_once() -> Vec<(u8, Vec<TypeConfig>)> {
    let over = MemberConfig::array("c", "SINT", LIMIT + 1);
    let wrong = |member: MemberConfig| member.access(&access_text(1));
    let string = |members: &[MemberConfig]| TypeConfig { string: Some(0), ..udt(members) };
    vec![
        (2, after(with_id(0xFF, TypeConfig::udt("a b", [])))),
        (3, after(with_id(0xFF, TypeConfig::udt("TIMER", [])))),
        (3, after(with_id(0x100, TypeConfig::udt("first", [])))),
        (4, after(with_id(0xF00, string(&[])))),
        (5, after(with_id(0x100, string(&[])))),
        (7, after(string(&[m("a;b", "DINT")]))),
        (2, after(udt(&[m("a b", "DINT").local(), m("a b", "DINT")]))),
        (8, after(udt(&[m("a", "DINT"), m("a", "DINT").local()]))),
        (9, after(udt(&[m("a", "DINT").local(), m("a;b", "DINT")]))),
        (2, after(udt(&[wrong(m("a", "DINT")), m("", "DINT")]))),
        (9, after(udt(&[over.clone(), m("d", "BOOL").local()]))),
        (11, after(udt(&[wrong(over.clone())]))),
        (12, after(udt(&[over.clone(), wrong(m("d", "BOOL"))]))),
        (11, after(udt(&[wrong(m("d", "BOOL")), over]))),
    ]
}

/// 10 with the first type that waits, and the turn that a type has in the rounds.
fn waiting(asked: &mut Asked) {
    let holds = |name: &str, other: &str| TypeConfig::udt(name, [m("a", other)]);
    let fine = || TypeConfig::udt("Fine", [m("a", "DINT")]);
    let books: [(u8, u32, Vec<TypeConfig>); 9] = [
        (10, 0, vec![holds("A", "Nowhere")]),
        (10, 1, vec![fine(), holds("A", "a")]),
        (10, 1, vec![fine(), holds("A", "B"), fine_named("Other"), holds("B", "C"), holds("C", "A")]),
        (10, 0, vec![holds("A", "B"), holds("B", "Nowhere"), fine()]),
        (10, 2, vec![holds("A", "B"), holds("B", "Fine"), holds("C", ""), fine()]),
        (10, 0, vec![holds("A", "DINT "), fine()]),
        (10, 1, vec![fine(), holds("A", "\u{e9}")]),
        // the later type has its turn first, since the earlier one waits for it
        (4, 1, vec![TypeConfig::udt("a b", [m("a", "Fine")]), with_id(0xFF, fine())]),
        // and every type before it has had its turn
        (12, 0, vec![TypeConfig::udt("Big", [MemberConfig::array("a", "SINT", LIMIT + 1)]), holds("a b", "DINT")]),
    ];
    for (number, place, types) in books {
        asked.refused(number, place, build(&types));
    }
}

fn fine_named(name: &str) -> TypeConfig {
    TypeConfig::udt(name, [m("a", "DINT")])
}

/// 13: one row or byte more than the tables have; it comes last.
fn too_many(asked: &mut Asked) {
    asked.refused(13, full::TYPES as u32, full::question(&full::types(full::TYPES + 1)));
    asked.refused(13, 0, full::question(&full::members(full::MEMBERS + 1)));
    asked.refused(13, 0, full::question(&full::names(full::NAME_BYTES + 1)));
    let mut types = full::types(full::TYPES);
    types.push(TypeConfig::udt("Last", [MemberConfig::array("a", "SINT", LIMIT + 1)]));
    asked.refused(12, full::TYPES as u32, full::question(&types));
}
