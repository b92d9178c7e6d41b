//! Books that fill the tables to the last row and byte, or pass them by one.
//! The capacities of the paragraph "Declaration book" in document 01, and the largest size of "Layout".

use super::exact::{self, Asked};
use crate::book::{self, Places};
use crate::cases::Case;
use crate::config::{MemberConfig, TypeConfig};
use crate::judge::build_question;
use crate::model::MAX_DATA_BYTES;

/// The rows and bytes that the predefined types leave.
pub(super) const TYPES: usize = 200 - 4;
pub(super) const MEMBERS: usize = 2_000 - 27;
pub(super) const NAME_BYTES: usize = 32_768 - 91;

/// The bytes that names may have, without the small letters, since names compare without case.
const SYMBOLS: &[u8] = b"!\"#$%&'()*+,-./0123456789:<=>?@ABCDEFGHIJKLMNOPQRSTUVWXYZ[\\]^_`{|}~";

/// The question that builds a large book; its names overlap, so that it stays short.
pub(super) fn question(types: &[TypeConfig]) -> Vec<u8> {
    build_question(&book::encode(types, Places::Overlapping).expect("it can be said"))
}

/// The full books, each with its last type's header: the handle goes over the whole template.
pub(super) fn all() -> Vec<Case> {
    let books = [types(TYPES), members(MEMBERS), names(NAME_BYTES), bools_after_the_limit()];
    let mut asked = Asked::default();
    for book in books {
        asked.judged(question(&book));
        asked.judged(exact::question(8, &exact::declared(book.len() - 1).to_le_bytes()));
    }
    asked.cases
}

/// A name of two symbols for each number.
fn short(i: usize) -> String {
    let symbol = |k: usize| char::from(SYMBOLS[k % SYMBOLS.len()]);
    [symbol(i / SYMBOLS.len()), symbol(i)].iter().collect()
}

/// So many types without members.
pub(super) fn types(n: usize) -> Vec<TypeConfig> {
    (0..n).map(|i| TypeConfig::udt(&short(i), [])).collect()
}

/// A type of so many members, hosts included: a BOOL and a SINT in turn make three.
pub(super) fn members(n: usize) -> Vec<TypeConfig> {
    let parts = (0..n / 3).flat_map(|_| ["BOOL", "SINT"]).chain((0..n % 3).map(|_| "SINT"));
    let member = |(i, data_type): (usize, &str)| MemberConfig::new(&short(i), data_type);
    vec![TypeConfig::udt("M", parts.enumerate().map(member))]
}

/// A type whose names have so many bytes: each but the last has 40, cut from one long text a byte further on.
pub(super) fn names(bytes: usize) -> Vec<TypeConfig> {
    let text: String = (0..400).map(|i| format!("{i:03}")).collect();
    let left = bytes - 1;
    let cut = |i: usize| MemberConfig::new(&text[i..i + 40.min(left - 40 * i)], "SINT");
    vec![TypeConfig::udt("N", (0..left.div_ceil(40)).map(cut))]
}

/// The largest size: hosts do not test the limit, so the BOOLs that the members' table still takes pass it.
fn bools_after_the_limit() -> Vec<TypeConfig> {
    let first = MemberConfig::array("all", "SINT", MAX_DATA_BYTES as u32);
    let bools = (0..1_752).map(|i| MemberConfig::new(&short(i), "BOOL"));
    vec![TypeConfig::udt("B", [first].into_iter().chain(bools))]
}
