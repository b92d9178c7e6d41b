//! Images of a value: bytes of any kind, with floats made finite and text lengths at their edges.
//! "Reading" and "Normal image" in the paragraph "Value stream" of document 01.

use crate::model::{Atomic, StructKind, Ty, Types};
use crate::rng::Rng;
use crate::values::visible;

/// An image of `count` elements, or of one where it is 0, inside the comparison domain.
pub(crate) fn image(rng: &mut Rng, types: &Types, ty: Ty, count: u64) -> Vec<u8> {
    let size = types.size(ty);
    let mut image = filled(rng, size * count.max(1) as usize);
    mend(rng, types, ty, count.max(1) as usize, &mut image);
    image
}

fn filled(rng: &mut Rng, length: usize) -> Vec<u8> {
    match rng.below(8) {
        0 => vec![0; length],
        1 => vec![0xFF; length],
        2 => rng.bytes(length).into_iter().map(|b| if b < 0x30 { b } else { 0 }).collect(),
        _ => rng.bytes(length),
    }
}

fn mend(rng: &mut Rng, types: &Types, ty: Ty, count: usize, image: &mut [u8]) {
    let size = types.size(ty);
    // nothing to mend in a type that holds no byte, however many of them there are
    for place in image.chunks_exact_mut(size.max(1)).take(count) {
        match ty {
            Ty::Atomic(Atomic::Real) => mend_real(rng, place),
            Ty::Atomic(Atomic::LReal) => mend_lreal(rng, place),
            Ty::Atomic(_) => return,
            Ty::Struct(i) => mend_structure(rng, types, i, place),
        }
    }
}

fn mend_structure(rng: &mut Rng, types: &Types, i: usize, image: &mut [u8]) {
    let def = types.def(i);
    if def.kind == StructKind::Str {
        return mend_length(rng, def.string_length() as u32, image);
    }
    for (_, m) in visible(&def.members).filter(|(_, m)| m.bit.is_none()) {
        let start = m.offset as usize;
        let count = m.array.max(1) as usize;
        let end = start + types.size(m.ty) * count;
        mend(rng, types, m.ty, count, &mut image[start..end]);
    }
}

/// LEN within, at and above the capacity.
fn mend_length(rng: &mut Rng, capacity: u32, image: &mut [u8]) {
    let length = match rng.below(9) {
        0 => 0,
        1 => capacity - 1,
        2 => capacity,
        3 => capacity + 1,
        4 => u32::MAX,
        5 => 0x8000_0000,
        6 => return,
        _ => rng.below(capacity as usize + 1) as u32,
    };
    image[..4].copy_from_slice(&length.to_le_bytes());
}

/// REALs at their edges, and any others as long as they are finite.
pub(crate) fn real(rng: &mut Rng) -> f32 {
    let edges = [0.0, -0.0, 1.0, -1.0, f32::MAX, f32::MIN, f32::MIN_POSITIVE, f32::EPSILON, f32::from_bits(1), 0.1];
    match rng.below(4) {
        0 => *rng.pick(&edges),
        _ => Some(f32::from_bits(rng.next() as u32)).filter(|x| x.is_finite()).unwrap_or(1.5),
    }
}

pub(crate) fn lreal(rng: &mut Rng) -> f64 {
    let edges = [0.0, -0.0, 1.0, -1.0, f64::MAX, f64::MIN, f64::MIN_POSITIVE, f64::EPSILON, f64::from_bits(1), 0.1];
    match rng.below(4) {
        0 => *rng.pick(&edges),
        _ => Some(f64::from_bits(rng.next())).filter(|x| x.is_finite()).unwrap_or(1.5),
    }
}

fn mend_real(rng: &mut Rng, place: &mut [u8]) {
    let bytes: [u8; 4] = place.try_into().expect("a REAL has four bytes");
    if rng.one_in(8) || !f32::from_le_bytes(bytes).is_finite() {
        place.copy_from_slice(&real(rng).to_le_bytes());
    }
}

fn mend_lreal(rng: &mut Rng, place: &mut [u8]) {
    let bytes: [u8; 8] = place.try_into().expect("an LREAL has eight bytes");
    if rng.one_in(8) || !f64::from_le_bytes(bytes).is_finite() {
        place.copy_from_slice(&lreal(rng).to_le_bytes());
    }
}
