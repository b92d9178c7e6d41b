//! Between the JSON of the original and the entries of a stream, by the original's types.
//! "Reading" and "Writing" in the paragraph "Value stream" of document 01.

use crate::model::{Atomic, Member, StructKind, Ty, Types};
use crate::stream::Entry;
use serde_json::{Map, Number, Value as Json};

/// The entries that reading gives, from what the original decoded: `count` 0 is one value, else an array.
/// Nothing where a float is not finite, for which the original's JSON has no number.
pub(crate) fn entries(types: &Types, ty: Ty, count: u64, json: &Json) -> Option<Vec<Entry>> {
    let mut out = Vec::new();
    emit(types, ty, count, json, &mut out)?;
    Some(out)
}

fn emit(types: &Types, ty: Ty, count: u64, json: &Json, out: &mut Vec<Entry>) -> Option<()> {
    match ty {
        Ty::Atomic(a) if a.is_bit_string() => emit_bits(json, out),
        _ if count > 0 => {
            out.push(Entry::ArrayOpen);
            for item in json.as_array()? {
                emit(types, ty, 0, item, out)?;
            }
            out.push(Entry::ArrayClose);
            Some(())
        }
        Ty::Atomic(a) => {
            out.push(atomic_entry(a, json)?);
            Some(())
        }
        Ty::Struct(i) => emit_structure(types, i, json, out),
    }
}

/// A bit string, or an array of them, is one array of all its bits.
fn emit_bits(json: &Json, out: &mut Vec<Entry>) -> Option<()> {
    out.push(Entry::ArrayOpen);
    for bit in json.as_array()? {
        out.push(Entry::Bool(bit.as_bool()?));
    }
    out.push(Entry::ArrayClose);
    Some(())
}

fn emit_structure(types: &Types, i: usize, json: &Json, out: &mut Vec<Entry>) -> Option<()> {
    let def = types.def(i);
    if def.kind == StructKind::Str {
        out.push(Entry::Text(latin1(json.as_str()?)?));
        return Some(());
    }
    out.push(Entry::Open);
    for (number, m) in visible(&def.members) {
        out.push(Entry::Member(number as u32));
        emit(types, m.ty, u64::from(m.array), json.get(&m.name)?, out)?;
    }
    out.push(Entry::Close);
    Some(())
}

/// The visible members, each with its number among all members.
pub(crate) fn visible(members: &[Member]) -> impl Iterator<Item = (usize, &Member)> {
    members.iter().enumerate().filter(|(_, m)| !m.hidden)
}

fn atomic_entry(a: Atomic, json: &Json) -> Option<Entry> {
    Some(match a {
        Atomic::Bool => Entry::Bool(json.as_bool()?),
        Atomic::SInt | Atomic::Int | Atomic::DInt | Atomic::LInt => Entry::Signed(json.as_i64()?),
        Atomic::USInt | Atomic::UInt | Atomic::UDInt | Atomic::ULInt => Entry::Unsigned(json.as_u64()?),
        Atomic::Real => Entry::Real((json.as_f64()? as f32).to_bits()),
        Atomic::LReal => Entry::LReal(json.as_f64()?.to_bits()),
        Atomic::Byte | Atomic::Word | Atomic::DWord | Atomic::LWord => return None,
    })
}

/// The bytes of a text of the original, which has one character for each byte.
pub(crate) fn latin1(text: &str) -> Option<Vec<u8>> {
    text.chars().map(|c| u8::try_from(u32::from(c)).ok()).collect()
}

/// The text of the original for these bytes.
pub(crate) fn text_json(bytes: &[u8]) -> Json {
    Json::String(bytes.iter().map(|&b| char::from(b)).collect())
}

/// The number of the original for a float; nothing where it is not finite.
pub(crate) fn float_json(x: f64) -> Option<Json> {
    Number::from_f64(x).map(Json::Number)
}

/// The JSON that the original is to write for these entries, all of them. Nothing where the document refuses them and
/// the original could not: an entry that 18 refuses at an atomic or as a member, a missing or a left-over one.
pub(crate) fn json(types: &Types, ty: Ty, count: u64, entries: &[Entry]) -> Option<Json> {
    let mut left = entries;
    let value = take(types, ty, count, &mut left)?;
    left.is_empty().then_some(value)
}

fn next<'a>(left: &mut &'a [Entry]) -> Option<&'a Entry> {
    let (first, rest) = left.split_first()?;
    *left = rest;
    Some(first)
}

fn take(types: &Types, ty: Ty, count: u64, left: &mut &[Entry]) -> Option<Json> {
    match (next(left)?, ty) {
        (Entry::Null, _) => Some(Json::Null),
        (Entry::ArrayOpen, Ty::Atomic(a)) if a.is_bit_string() => take_bits(count, left),
        (Entry::ArrayOpen, _) if count > 0 => take_array(types, ty, left),
        _ if count > 0 => None,
        (Entry::Open, Ty::Struct(i)) if types.def(i).kind != StructKind::Str => take_members(types, i, left),
        (entry, Ty::Atomic(a)) => atomic_json(a, entry),
        (entry, Ty::Struct(_)) => other_json(entry, left),
    }
}

/// Bools, or, for an array of bit strings, whole numbers and nulls; never a mixture.
fn take_bits(count: u64, left: &mut &[Entry]) -> Option<Json> {
    let bools = matches!(left.first(), Some(Entry::Bool(_) | Entry::ArrayClose));
    let mut items = Vec::new();
    loop {
        match next(left)? {
            Entry::ArrayClose => return Some(Json::Array(items)),
            Entry::Bool(b) if bools => items.push(Json::Bool(*b)),
            Entry::Null if !bools && count > 0 => items.push(Json::Null),
            Entry::Signed(n) if !bools && count > 0 => items.push(Json::from(*n)),
            Entry::Unsigned(n) if !bools && count > 0 => items.push(Json::from(*n)),
            _ => return None,
        }
    }
}

fn take_array(types: &Types, ty: Ty, left: &mut &[Entry]) -> Option<Json> {
    let mut items = Vec::new();
    while left.first()? != &Entry::ArrayClose {
        // the original would flatten an array inside an array, the document refuses it
        if left.first()? == &Entry::ArrayOpen {
            return None;
        }
        items.push(take(types, ty, 0, left)?);
    }
    next(left)?;
    Some(Json::Array(items))
}

fn take_members(types: &Types, i: usize, left: &mut &[Entry]) -> Option<Json> {
    let mut object = Map::new();
    loop {
        match next(left)? {
            Entry::Close => return Some(Json::Object(object)),
            Entry::Member(number) => {
                let m = types.def(i).members.get(*number as usize).filter(|m| !m.hidden)?;
                let value = take(types, m.ty, u64::from(m.array), left)?;
                object.insert(m.name.clone(), value);
            }
            _ => return None,
        }
    }
}

fn atomic_json(a: Atomic, entry: &Entry) -> Option<Json> {
    match (a, entry) {
        (Atomic::Bool, Entry::Bool(b)) => Some(Json::Bool(*b)),
        (Atomic::Real, Entry::Real(bits)) => float_json(f64::from(f32::from_bits(*bits))),
        (Atomic::LReal, Entry::LReal(bits)) => float_json(f64::from_bits(*bits)),
        (Atomic::Bool | Atomic::Real | Atomic::LReal, _) => None,
        (_, Entry::Signed(n)) => Some(Json::from(*n)),
        (_, Entry::Unsigned(n)) => Some(Json::from(*n)),
        _ => None,
    }
}

/// What stands for a string, or wrongly for a structure: the original sees it and decides. A structure or array
/// here is passed over to its close, an empty one standing for it: of either kind the original asks no more.
fn other_json(entry: &Entry, left: &mut &[Entry]) -> Option<Json> {
    let (value, mut depth) = match entry {
        Entry::Text(bytes) => (text_json(bytes), 0),
        Entry::Bool(b) => (Json::Bool(*b), 0),
        Entry::Signed(n) => (Json::from(*n), 0),
        Entry::Unsigned(n) => (Json::from(*n), 0),
        Entry::Real(bits) => (float_json(f64::from(f32::from_bits(*bits)))?, 0),
        Entry::LReal(bits) => (float_json(f64::from_bits(*bits))?, 0),
        Entry::Open => (Json::Object(Map::new()), 1),
        Entry::ArrayOpen => (Json::Array(Vec::new()), 1),
        _ => return None,
    };
    while depth > 0 {
        match next(left)? {
            Entry::Open | Entry::ArrayOpen => depth += 1,
            Entry::Close | Entry::ArrayClose => depth -= 1,
            _ => {}
        }
    }
    Some(value)
}
