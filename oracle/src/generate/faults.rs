//! Books that are refused on purpose: an ordinary book with one fault put in.
//! The table of "Refusal numbers" in document 01, as far as the comparison domain reaches.

use super::books::ordinary;
use super::edge_books::LIMIT;
use super::names::{self, Names, recased};
use crate::book::access_text;
use crate::config::{MemberConfig, TypeConfig};
use crate::rng::Rng;

type Book = Vec<TypeConfig>;

/// The refusal aimed at, and in how many ways its fault can be put in.
const FAULTS: [(u8, usize); 10] = [(2, 2), (3, 3), (4, 6), (5, 2), (7, 5), (8, 2), (9, 2), (10, 7), (11, 4), (12, 9)];

pub(crate) fn count() -> usize {
    FAULTS.iter().map(|(_, ways)| ways).sum()
}

/// The faulty book of this number, taken round, and the refusal that it aims at.
pub(crate) fn faulty(rng: &mut Rng, number: usize) -> (Book, u8) {
    let mut left = number % count();
    for (refusal, ways) in FAULTS {
        if left < ways {
            return (with_fault(rng, refusal, left), refusal);
        }
        left -= ways;
    }
    unreachable!("the number is below the count of all ways")
}

fn with_fault(rng: &mut Rng, refusal: u8, way: usize) -> Book {
    let mut book = ordinary(rng);
    let mut fault = match refusal {
        2 => unnamed(rng, way),
        3 => known(rng, way, &mut book),
        4 => bad_id(rng, way),
        5 => used_id(rng, way, &mut book),
        7 => bad_string(rng, way),
        8 => twice(rng, way),
        9 => local(rng, way),
        10 => unknown(rng, way),
        11 => bad_access(rng, way),
        _ => too_large(rng, way),
    };
    // a fault that needs something before it comes last, any other anywhere
    let place = if matches!(refusal, 3 | 5) { book.len() } else { rng.below(book.len() + 1) };
    book.splice(place..place, fault.drain(..));
    book
}

fn new_name(rng: &mut Rng) -> String {
    Names::of_types().fresh(rng)
}

fn udt(rng: &mut Rng, members: impl IntoIterator<Item = MemberConfig>) -> TypeConfig {
    TypeConfig::udt(&new_name(rng), members)
}

fn unnamed(rng: &mut Rng, way: usize) -> Book {
    match way {
        0 => vec![TypeConfig::udt("", [MemberConfig::new("a", "BOOL")])],
        _ => vec![udt(rng, [MemberConfig::new("a", "BOOL"), MemberConfig::new("", "DINT")])],
    }
}

fn known(rng: &mut Rng, way: usize, book: &mut Book) -> Book {
    let name = match way {
        0 => names::atomic(rng).to_owned(),
        1 => names::predefined(rng).to_owned(),
        _ => {
            book.push(udt(rng, []));
            book[rng.below(book.len())].name.clone()
        }
    };
    vec![TypeConfig::udt(&recased(rng, &name), [])]
}

fn bad_id(rng: &mut Rng, way: usize) -> Book {
    let id = [0xFF, 0xF00, 0, 0xFFFF, 0xF83, 0x1100][way];
    vec![TypeConfig { template_id: Some(id), ..udt(rng, []) }]
}

fn used_id(rng: &mut Rng, way: usize, book: &mut Book) -> Book {
    // the first: given twice; the second: what a type without one has taken as the lowest free
    let first = if way == 0 { Some(0x9AB) } else { None };
    book.clear();
    let id = first.unwrap_or(0x100);
    let before = TypeConfig { template_id: first, ..TypeConfig::udt("Before", []) };
    vec![before, TypeConfig { template_id: Some(id), ..udt(rng, []) }]
}

fn bad_string(rng: &mut Rng, way: usize) -> Book {
    let length = [0, LIMIT - 3, u32::MAX, 20, 20][way];
    let mut config = TypeConfig::string(&new_name(rng), length);
    if way == 3 {
        config.members.push(MemberConfig::new("a", "SINT"));
    }
    config.aoi = way == 4;
    vec![config]
}

fn twice(rng: &mut Rng, way: usize) -> Book {
    let second = if way == 0 { "Level".to_owned() } else { recased(rng, "lEVEL") };
    let members = [("Level", "INT"), ("Live", "BOOL"), (second.as_str(), "BOOL")];
    let members = members.map(|(name, data_type)| MemberConfig::new(name, data_type));
    vec![TypeConfig { aoi: rng.one_in(3), ..udt(rng, members) }]
}

fn local(rng: &mut Rng, way: usize) -> Book {
    let data_type = ["BOOL", "DINT"][way];
    vec![udt(rng, [MemberConfig::new("a", "BOOL"), MemberConfig::new("b", data_type).local()])]
}

fn unknown(rng: &mut Rng, way: usize) -> Book {
    let holds = |name: &str, other: &str| TypeConfig::udt(name, [MemberConfig::new("a", other)]);
    match way {
        0 => vec![holds("Alone", "Nowhere")],
        1 => vec![holds("Selfish", "selfish")],
        2 => vec![holds("Ping", "Pong"), holds("Pong", "Ping")],
        3 => vec![holds("A1", "B2"), holds("B2", "C3"), holds("C3", "A1")],
        4 => vec![holds("Nameless", "")],
        5 => vec![holds("Umlaut", "Gr\u{f6}\u{df}e")],
        _ => vec![holds("Nearly", ["DINT ", "D1NT", "DIN", "DINTS"][rng.below(4)])],
    }
}

fn bad_access(rng: &mut Rng, way: usize) -> Book {
    let access = access_text([1, 4, 255, 1][way]);
    let data_type = ["BOOL", "DINT", "STRING", "BOOL"][way];
    let members = [MemberConfig::new("a", "BOOL"), MemberConfig::new("b", data_type).access(&access)];
    vec![TypeConfig { aoi: way == 3, ..udt(rng, members) }]
}

/// Members that end above the limit, by one byte or by products far above 2^32.
fn too_large(rng: &mut Rng, way: usize) -> Book {
    let parts: &[(&str, u32)] = match way {
        0 => &[("SINT", LIMIT + 1)],
        1 => &[("LINT", LIMIT / 8 + 1)],
        2 => &[("LINT", u32::MAX)],
        3 => &[("BOOL", (1 << 29) + 1)],
        4 => &[("SINT", LIMIT), ("BOOL", 0), ("Nothing9", 0)],
        5 => &[("Large9", u32::MAX)],
        6 => &[("SINT", LIMIT - 3), ("DINT", 0)],
        7 => &[("Over9", 0)],
        _ => &[("SINT", LIMIT)],
    };
    let members: Vec<_> =
        parts.iter().enumerate().map(|(i, (t, dim))| MemberConfig::array(&format!("m{i}"), t, *dim)).collect();
    let large = MemberConfig::array("all", "SINT", LIMIT);
    let over = [large.clone(), MemberConfig::new("bit", "BOOL")];
    // in an AOI the same array starts after the first host
    let fault = TypeConfig { aoi: way == 8, ..udt(rng, members) };
    vec![TypeConfig::udt("Nothing9", []), TypeConfig::udt("Large9", [large]), TypeConfig::udt("Over9", over), fault]
}
