//! What the original knows of one type, as the bytes of an answer, and the type's waste.
//! The paragraphs "Layout" and "Template and handle" of document 01.

use crate::model::{Atomic, Member, StructKind, Ty, Types};
use crate::values::visible;

/// A type in a question or answer: an atomic's code, or 0x8000 plus the type's number.
pub(crate) fn type_word(ty: Ty) -> u16 {
    match ty {
        Ty::Atomic(a) => u16::from(a.code()),
        Ty::Struct(i) => 0x8000 + i as u16,
    }
}

/// The type of a word, where there is one.
pub(crate) fn type_of(types: &Types, word: u16) -> Option<Ty> {
    if word >= 0x8000 {
        let i = usize::from(word - 0x8000);
        return (i < types.defs.len()).then_some(Ty::Struct(i));
    }
    atomics().find(|a| u16::from(a.code()) == word).map(Ty::Atomic)
}

/// The names of the atomics, in the order of the document's paragraph "Atomic types".
pub(crate) const ATOMICS: [&str; 15] = [
    "BOOL", "SINT", "INT", "DINT", "LINT", "USINT", "UINT", "UDINT", "ULINT", "REAL", "LREAL", "BYTE", "WORD", "DWORD",
    "LWORD",
];

pub(crate) fn atomics() -> impl Iterator<Item = Atomic> {
    ATOMICS.into_iter().filter_map(Atomic::from_name)
}

/// The least and the greatest whole number that an atomic takes, by the document's sentences; nothing for BOOL and
/// floats.
pub(crate) fn range(a: Atomic) -> Option<(i128, i128)> {
    let half = 1i128 << (8 * a.size() - 1);
    match a.code() {
        0xC2..=0xC5 => Some((-half, half - 1)),
        0xC6..=0xC9 => Some((0, 2 * half - 1)),
        0xD1..=0xD4 => Some((-half, 2 * half - 1)),
        _ => None,
    }
}

pub(crate) fn type_name(types: &Types, ty: Ty) -> &str {
    match ty {
        Ty::Atomic(a) => a.name(),
        Ty::Struct(i) => &types.def(i).name,
    }
}

/// The bits that a visible member counts for: a BOOL one, an embedded structure its whole size.
fn member_bits(types: &Types, m: &Member) -> u64 {
    match m.bit {
        Some(_) => 1,
        None => 8 * types.size(m.ty) as u64 * u64::from(m.array.max(1)),
    }
}

/// The document's waste, which the original does not have: the size in bits less the visible members' bits.
pub(crate) fn waste(types: &Types, i: usize) -> u64 {
    let def = types.def(i);
    let held: u64 = visible(&def.members).map(|(_, m)| member_bits(types, m)).sum();
    8 * u64::from(def.size) - held
}

/// The answer to a question of kind 2.
pub(crate) fn describe(types: &Types, i: usize) -> Vec<u8> {
    let def = types.def(i);
    let kind = match def.kind {
        StructKind::Udt => 0,
        StructKind::Predefined => 1,
        StructKind::Str => 2,
        StructKind::Aoi => 3,
    };
    let mut out = Vec::new();
    name(&def.name, &mut out);
    out.extend(def.template_id.to_le_bytes());
    out.extend(def.handle.to_le_bytes());
    out.extend(def.size.to_le_bytes());
    out.push(kind);
    out.extend((def.template.len() as u32).to_le_bytes());
    out.extend(def.object_definition_size().to_le_bytes());
    out.extend(waste(types, i).to_le_bytes());
    out.extend((def.members.len() as u16).to_le_bytes());
    for m in &def.members {
        member(m, &mut out);
    }
    out
}

fn name(text: &str, out: &mut Vec<u8>) {
    out.push(text.len() as u8);
    out.extend(text.as_bytes());
}

fn member(m: &Member, out: &mut Vec<u8>) {
    name(&m.name, out);
    out.extend(type_word(m.ty).to_le_bytes());
    out.extend(m.array.to_le_bytes());
    out.extend(m.offset.to_le_bytes());
    out.push(m.bit.unwrap_or(255));
    out.push(u8::from(m.hidden) | u8::from(m.local) << 1);
    out.push(m.access);
}
