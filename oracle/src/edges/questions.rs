//! The edges that questions about types reach: every kind of type, every atomic, rooms, lengths and names.
//! The paragraphs "Atomic types", "Template and handle" and "Tag shape" of document 01.

use crate::describe::{ATOMICS, atomics, type_of};
use crate::frames::{Fields, MOST_ROOM};
use crate::model::{Atomic, StructKind, Ty, Types};

const TEMPLATES: [&str; 4] = ["a room of its length", "a room one below", "a room above the largest", "of an atomic"];
const LOOKUPS: [&str; 4] = ["a declared type", "a type in another case", "no name", "no letters"];
const PREDEFINED: [&str; 4] = ["TIMER", "COUNTER", "CONTROL", "STRING"];
const DECLARED: [&str; 3] = ["a UDT", "a string type", "an AOI"];

pub(super) fn wanted() -> Vec<String> {
    let mut all: Vec<String> = SHAPES.iter().map(|(name, _)| format!("shape: {name}")).collect();
    all.extend(TEMPLATES.map(|name| format!("template: {name}")));
    all.extend(LOOKUPS.map(|name| format!("lookup: {name}")));
    for verb in ["type", "template", "shape", "header"] {
        all.extend(PREDEFINED.iter().chain(&DECLARED).map(|name| format!("{verb}: of {name}")));
        all.push(format!("{verb}: of no type"));
    }
    for verb in ["shape", "header", "lookup"] {
        all.extend(ATOMICS.map(|name| format!("{verb}: of {name}")));
    }
    all.extend(PREDEFINED.map(|name| format!("lookup: of {name}")));
    all
}

/// Questions of the kinds 2, 3, 4, 8 and 10.
pub(super) fn reached(types: &Types, kind: u8, body: &[u8], accepted: bool) -> Vec<String> {
    let mut q = Fields(body);
    let (verb, ty, found) = match kind {
        2 => ("type", q.u16().map(|i| Ty::Struct(i.into())), Vec::new()),
        3 => ("template", word(types, body), template(types, &mut q)),
        4 => ("shape", word(types, body), shape(types, &mut q)),
        8 => ("header", word(types, body), Vec::new()),
        _ => return lookup(types, body).iter().map(|edge| format!("lookup: {edge}")).collect(),
    };
    let about = about(types, ty, accepted).map(|name| format!("of {name}"));
    found.into_iter().chain(about).map(|edge| format!("{verb}: {edge}")).collect()
}

fn word(types: &Types, body: &[u8]) -> Option<Ty> {
    type_of(types, Fields(body).u16()?)
}

/// What an accepted question is about; a refused one only where it is about no type.
fn about(types: &Types, ty: Option<Ty>, accepted: bool) -> Option<&'static str> {
    match ty {
        Some(Ty::Atomic(a)) => accepted.then(|| a.name()),
        Some(Ty::Struct(i)) if i < types.defs.len() => accepted.then(|| structure(types, i)),
        _ => Some("no type"),
    }
}

fn structure(types: &Types, i: usize) -> &'static str {
    match types.def(i).kind {
        _ if i < 4 => PREDEFINED[i],
        StructKind::Str => DECLARED[1],
        StructKind::Aoi => DECLARED[2],
        _ => DECLARED[0],
    }
}

fn template(types: &Types, q: &mut Fields) -> Vec<String> {
    let ty = q.u16().and_then(|word| type_of(types, word));
    let room = q.u32().unwrap_or(0) as usize;
    let length = match ty {
        Some(Ty::Struct(i)) => Some(types.def(i).template.len()),
        _ => None,
    };
    let atomic = matches!(ty, Some(Ty::Atomic(_)));
    let tests = [length == Some(room), length == Some(room + 1), room > MOST_ROOM, atomic];
    TEMPLATES.iter().zip(tests).filter(|(_, test)| *test).map(|(name, _)| (*name).to_owned()).collect()
}

/// A tag shape: its type, its lengths and their product.
struct Shape {
    ty: Option<Ty>,
    lengths: Vec<u32>,
    product: u128,
}

type Test = fn(&Shape) -> bool;

const SHAPES: [(&str, Test); 12] = [
    ("no length", |s| s.lengths.is_empty()),
    ("three lengths", |s| s.lengths.len() == 3 && !s.lengths.contains(&0)),
    ("four lengths", |s| s.lengths.len() == 4),
    ("a length of 0", |s| s.lengths.contains(&0)),
    ("a product of 2^26", |s| s.product == 1 << 26),
    ("a product above 2^32", |s| s.product > 1 << 32),
    ("a product of 2^64 or more", |s| s.product >= 1 << 64),
    ("BOOL of 32", |s| s.bools(&[32])),
    ("BOOL of 33", |s| s.bools(&[33])),
    ("BOOL of 2^29", |s| s.bools(&[1 << 29])),
    ("BOOL of 2^32 - 1", |s| s.bools(&[u32::MAX])),
    ("BOOL with two lengths", |s| s.bools(&[32, 32])),
];

impl Shape {
    fn bools(&self, lengths: &[u32]) -> bool {
        self.ty == Some(Ty::Atomic(Atomic::Bool)) && self.lengths == lengths
    }
}

fn shape(types: &Types, q: &mut Fields) -> Vec<String> {
    let ty = q.u16().and_then(|word| type_of(types, word));
    let n = q.u8().unwrap_or(0);
    let lengths: Vec<u32> = (0..n).filter_map(|_| q.u32()).collect();
    let product = lengths.iter().fold(1u128, |p, n| p.saturating_mul((*n).into()));
    let shape = Shape { ty, lengths, product };
    SHAPES.iter().filter(|(_, test)| test(&shape)).map(|(name, _)| (*name).to_owned()).collect()
}

fn lookup(types: &Types, name: &[u8]) -> Vec<String> {
    let text = std::str::from_utf8(name).unwrap_or("");
    let mut out = Vec::new();
    if name.is_empty() {
        out.push(LOOKUPS[2].to_owned());
    }
    if !name.is_empty() && !name.iter().any(u8::is_ascii_alphabetic) {
        out.push(LOOKUPS[3].to_owned());
    }
    let fixed = atomics().map(|a| a.name()).chain(PREDEFINED).find(|n| n.eq_ignore_ascii_case(text));
    let own = types.defs.iter().skip(4).map(|d| d.name.as_str()).find(|n| n.eq_ignore_ascii_case(text));
    if let Some(found) = fixed.or(own) {
        out.push(fixed.map_or(LOOKUPS[0].to_owned(), |name| format!("of {name}")));
        if found != text {
            out.push(LOOKUPS[1].to_owned());
        }
    }
    out
}
