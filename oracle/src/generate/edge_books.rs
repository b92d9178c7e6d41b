//! Small books, each at one edge of the layout rules, taken in turn so that every one of them is met.
//! The paragraphs "Layout" and "Reference cases" of document 01.

use super::names::{Names, atomic, of_length, recased};
use crate::config::{MemberConfig, TypeConfig};
use crate::describe::ATOMICS;
use crate::model::MAX_DATA_BYTES;
use crate::rng::Rng;

/// The most bytes that a member may reach to.
pub(crate) const LIMIT: u32 = MAX_DATA_BYTES as u32;

type Book = Vec<TypeConfig>;
/// An edge: how its book is made from a number.
type Recipe = (fn(&mut Rng, u32) -> Book, &'static [u32]);

const RECIPES: [Recipe; 19] = [
    (bools, &[1, 7, 8, 9, 16, 17, 64, 65]),
    (bool_among_others, &[0, 1, 2, 3]),
    (bool_arrays, &[1, 31, 32, 33, 64, 65, 1 << 29]),
    (aoi_bools, &[0, 29, 30, 31, 61, 62, 63, 94, 95]),
    (chain, &[1, 2, 5, 20, 60]),
    (reversed_chain, &[3, 12, 40]),
    (structure_arrays, &[1, 2, 3, 7]),
    (names_of_length, &[1, 10, 11, 40]),
    (cased_names, &[0, 1]),
    (ids, &[0, 1, 2, 3]),
    (every_atomic, &[0, 1, 2, 33]),
    (at_the_limit, &[0, 1, 2, 3, 4, 5, 6, 7]),
    (bools_after_the_limit, &[1, 8, 9, 1752]),
    (strings, &[1, 2, 3, 4, 5, 82, 83, 4096, LIMIT - 5, LIMIT - 4]),
    (empty, &[0, 1, 2, 3]),
    (many_types, &[195, 196]),
    (full_members, &[1972, 1973]),
    (full_names, &[0, 1]),
    (hosts, &[2, 11, 101]),
];

/// How many edge books there are.
pub(crate) fn count() -> usize {
    RECIPES.iter().map(|(_, numbers)| numbers.len()).sum()
}

/// The edge book of this number, taken round.
pub(crate) fn edge(rng: &mut Rng, number: usize) -> Book {
    let mut left = number % count();
    for (make, numbers) in RECIPES {
        if left < numbers.len() {
            return make(rng, numbers[left]);
        }
        left -= numbers.len();
    }
    Vec::new()
}

fn m(i: usize, data_type: &str, dim: u32) -> MemberConfig {
    MemberConfig::array(&format!("m{i}"), data_type, dim)
}

/// Members `m0`, `m1`, .. of these types and dims.
fn listed(parts: &[(&str, u32)]) -> Vec<MemberConfig> {
    parts.iter().enumerate().map(|(i, (t, dim))| m(i, t, *dim)).collect()
}

fn udt(rng: &mut Rng, parts: &[(&str, u32)]) -> TypeConfig {
    TypeConfig::udt(&Names::of_types().fresh(rng), listed(parts))
}

fn bools(rng: &mut Rng, n: u32) -> Book {
    vec![udt(rng, &vec![("BOOL", 0); n as usize])]
}

fn bool_among_others(rng: &mut Rng, n: u32) -> Book {
    let (bool, int, sint, lint) = (("BOOL", 0), ("INT", 0), ("SINT", 0), ("LINT", 0));
    let parts: &[(&str, u32)] = match n {
        0 => &[int, bool],
        1 => &[bool, sint, bool],
        2 => &[bool, int, bool, bool, lint, bool],
        _ => &[bool, ("BOOL", 33), bool, ("TIMER", 0), bool],
    };
    vec![udt(rng, parts)]
}

fn bool_arrays(rng: &mut Rng, dim: u32) -> Book {
    vec![udt(rng, &[("BOOL", dim)]), TypeConfig::aoi("With_an_AOI", listed(&[("BOOL", 0), ("BOOL", dim.min(65))]))]
}

fn aoi_bools(rng: &mut Rng, n: u32) -> Book {
    let mut members = listed(&vec![("BOOL", 0); n as usize]);
    if rng.one_in(2) {
        members.extend([MemberConfig::new("x", "SINT"), MemberConfig::array("y", "LREAL", 2).local()]);
        rng.shuffle(&mut members);
    }
    vec![TypeConfig::aoi(&of_length(rng, 6), members)]
}

/// Each type holds the one before it.
fn chain(rng: &mut Rng, depth: u32) -> Book {
    let mut book = vec![TypeConfig::udt("Link0", listed(&[("BOOL", 0), ("INT", 0), ("STRING", 0)]))];
    for i in 1..depth as usize {
        let before = recased(rng, &format!("Link{}", i - 1));
        let dim = if i < 5 { 2 } else { 0 };
        let parts = [("BOOL", 0), (before.as_str(), dim), (atomic(rng), 0)];
        book.push(TypeConfig::udt(&format!("Link{i}"), listed(&parts)));
    }
    book
}

/// Every round over the waiting types adds one.
fn reversed_chain(rng: &mut Rng, depth: u32) -> Book {
    let mut book = chain(rng, depth);
    book.reverse();
    book
}

fn structure_arrays(rng: &mut Rng, dim: u32) -> Book {
    let inner = listed(&[("BOOL", 0), ("SINT", 0), ("BOOL", 0), ("LINT", 0), ("SINT", 3)]);
    let outer = listed(&[("BOOL", 0), ("Inner", dim), ("SINT", 0), ("COUNTER", dim), ("STRING", dim), ("BOOL", 0)]);
    let mut book = vec![
        TypeConfig::udt("Inner", inner),
        TypeConfig::udt("Outer", outer),
        udt(rng, &[("SINT", 0), ("Outer", dim)]),
    ];
    rng.shuffle(&mut book);
    book
}

fn names_of_length(rng: &mut Rng, length: u32) -> Book {
    let name = of_length(rng, length as usize);
    let member = MemberConfig::new(&of_length(rng, length as usize), "BOOL");
    vec![TypeConfig::udt(&format!("{}!", &name[1..]), [member.clone()]), TypeConfig::aoi("Another_type", [member])]
}

/// Members whose names differ only in case from those of another type, and types named in any case.
fn cased_names(rng: &mut Rng, n: u32) -> Book {
    let lower = MemberConfig::new("level", "BOOL");
    let inner = if n == 0 { "ZZZZZZZZZZouter1" } else { "__BitHost00" };
    let outer = [MemberConfig::new("LEVEL", &recased(rng, "Inner")), MemberConfig::new(inner, "bool")];
    vec![
        TypeConfig::udt("iNNER", [lower.clone()]),
        TypeConfig::udt("outer", outer.clone()),
        TypeConfig::aoi("a", outer),
    ]
}

fn ids(rng: &mut Rng, n: u32) -> Book {
    let given: &[Option<u16>] = match n {
        0 => &[Some(0x100), None, None],
        1 => &[Some(0xEFF), None, Some(0x102), None, None],
        2 => &[None, Some(0x100)],
        _ => &[Some(0x101), None, None, Some(0xEFE), None],
    };
    let mut names = Names::of_types();
    let one = |id: &Option<u16>| TypeConfig { template_id: *id, ..TypeConfig::udt(&names.fresh(rng), []) };
    given.iter().map(one).collect()
}

/// Every atomic in every place: after one byte, so that its alignment shows.
fn every_atomic(rng: &mut Rng, dim: u32) -> Book {
    let apart: Vec<_> = ATOMICS.iter().flat_map(|t| [("SINT", 0), (*t, dim)]).collect();
    let mut close: Vec<_> = ATOMICS.iter().map(|t| (*t, dim)).collect();
    rng.shuffle(&mut close);
    vec![TypeConfig::udt("Apart", listed(&apart)), TypeConfig::aoi("Close", listed(&close))]
}

fn at_the_limit(rng: &mut Rng, n: u32) -> Book {
    let parts: &[(&str, u32)] = match n {
        0 => &[("SINT", LIMIT)],
        1 => &[("DINT", LIMIT / 4)],
        2 => &[("LWORD", LIMIT / 8)],
        3 => &[("BOOL", 0), ("INT", LIMIT / 2 - 1)],
        4 => &[("SINT", LIMIT - 12), ("TIMER", 0)],
        5 => &[("SINT", LIMIT), ("Nothing", u32::MAX)],
        6 => &[("SINT", 65_535), ("SINT", 65_536), ("SINT", 65_537), ("INT", 131_073)],
        _ => &[("Sixteen", LIMIT / 16)],
    };
    vec![udt(rng, parts), TypeConfig::udt("Nothing", []), TypeConfig::udt("Sixteen", listed(&[("LINT", 2)]))]
}

/// Opening a host does not test the limit, so these pass it.
fn bools_after_the_limit(rng: &mut Rng, n: u32) -> Book {
    let mut parts = vec![("SINT", LIMIT)];
    parts.extend(vec![("BOOL", 0); n as usize]);
    vec![udt(rng, &parts)]
}

fn strings(rng: &mut Rng, capacity: u32) -> Book {
    let mut book = vec![TypeConfig::string("Text", capacity)];
    if capacity < LIMIT / 4 {
        book.push(udt(rng, &[("BOOL", 0), ("Text", 0), ("text", 3), ("SINT", 0)]));
    }
    book
}

fn empty(rng: &mut Rng, n: u32) -> Book {
    let nothing = TypeConfig::udt("Nothing", []);
    match n {
        0 => vec![],
        1 => vec![nothing, TypeConfig::aoi("Bare", [])],
        2 => vec![nothing, udt(rng, &[("Nothing", 0), ("SINT", 0), ("nothing", 3), ("BOOL", 0)])],
        _ => vec![udt(rng, &[("Nothing", u32::MAX), ("BOOL", 0)]), nothing],
    }
}

/// As many types as the tables hold, the four predefined ones included, each in the next; or one less, in short chains.
fn many_types(rng: &mut Rng, n: u32) -> Book {
    let mut book: Book = Vec::new();
    for i in 0..n as usize {
        let deeper = format!("T{}", i.max(1) - 1);
        let first = i == 0 || (n == 195 && i % 7 == 6);
        let part = if first { "INT" } else { deeper.as_str() };
        book.push(TypeConfig::udt(&format!("T{i}"), listed(&[(part, 0), ("BOOL", 0)])));
    }
    if rng.one_in(2) {
        rng.shuffle(&mut book);
    }
    book
}

/// As many members as the tables hold: the predefined types have 27.
fn full_members(rng: &mut Rng, n: u32) -> Book {
    vec![udt(rng, &vec![("SINT", 0); n as usize])]
}

/// Names to the last byte of the table: the predefined types' take 91 bytes.
fn full_names(rng: &mut Rng, less: u32) -> Book {
    let mut left = 32_768 - 91 - "Full".len() - less as usize;
    let mut members = Vec::new();
    while left > 0 {
        let length = left.min(40);
        let pad = "n".repeat(length.saturating_sub(6));
        let name = format!("{:0width$}{pad}", members.len(), width = length.min(6));
        members.push(MemberConfig::new(&name, ATOMICS[rng.between(1, 14)]));
        left -= name.len();
    }
    vec![TypeConfig::udt("Full", members)]
}

/// Many hosts: the count of members in a host's name grows to several digits.
fn hosts(rng: &mut Rng, n: u32) -> Book {
    let parts: Vec<_> = (0..n).flat_map(|_| [("BOOL", 0), ("SINT", 0)]).collect();
    let name = of_length(rng, *rng.clone().pick(&[3, 10, 11, 40]));
    vec![TypeConfig::udt(&name, listed(&parts))]
}
