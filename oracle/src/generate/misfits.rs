//! Streams that the document refuses and the original knows nothing of, or takes: 17, and 18 where JSON cannot say it.
//! The paragraph "Value stream" of document 01 decides these alone; they lie just outside the comparison domain.

use crate::model::{Atomic, Ty, Types};
use crate::rng::Rng;
use crate::stream::{self, Entry};

/// Changes the entries of a value so that one does not fit, is missing or left over.
pub(crate) fn misfit(rng: &mut Rng, types: &Types, ty: Ty, count: u64, entries: &mut Vec<Entry>) {
    match (rng.below(4), ty) {
        (0, _) => drop(entries.pop()),
        (1, _) => entries.push(rng.pick(&[Entry::Null, Entry::Close, Entry::ArrayClose, Entry::Bool(true)]).clone()),
        (_, _) if count > 0 => *entries = wrong_array(rng, ty, count),
        (_, Ty::Atomic(a)) => *entries = vec![wrong_kind(rng, a)],
        (_, Ty::Struct(i)) => *entries = wrong_member(rng, types, i),
    }
}

/// A bare value, an array inside the array, or bools and numbers mixed.
fn wrong_array(rng: &mut Rng, ty: Ty, count: u64) -> Vec<Entry> {
    let bits = matches!(ty, Ty::Atomic(a) if a.is_bit_string());
    let inside = match rng.below(4) {
        0 => return vec![Entry::Unsigned(1)],
        1 if bits && count > 1 => vec![Entry::Bool(true), Entry::Unsigned(1)],
        2 if bits && count > 1 => vec![Entry::Null, Entry::Bool(true)],
        _ => vec![Entry::ArrayOpen, Entry::ArrayClose],
    };
    [vec![Entry::ArrayOpen], inside, vec![Entry::ArrayClose]].concat()
}

/// An entry that the atomic does not take, though the original takes some such from JSON.
fn wrong_kind(rng: &mut Rng, a: Atomic) -> Entry {
    let all = [
        Entry::Bool(true),
        Entry::Signed(1),
        Entry::Unsigned(1),
        Entry::Real(1f32.to_bits()),
        Entry::LReal(1f64.to_bits()),
        Entry::Text(b"1".to_vec()),
        Entry::Member(0),
    ];
    let takes = |e: &Entry| match e {
        Entry::Bool(_) => a == Atomic::Bool,
        Entry::Real(_) => a == Atomic::Real,
        Entry::LReal(_) => a == Atomic::LReal,
        Entry::Signed(_) | Entry::Unsigned(_) => a.has_bits(),
        _ => false,
    };
    let others: Vec<Entry> = all.into_iter().filter(|e| !takes(e)).collect();
    rng.pick(&others).clone()
}

/// A member that is not there, or a hidden one, with a null that would fit anywhere.
fn wrong_member(rng: &mut Rng, types: &Types, i: usize) -> Vec<Entry> {
    let members = &types.def(i).members;
    let hidden: Vec<usize> = (0..members.len()).filter(|n| members[*n].hidden).collect();
    let number = match rng.below(3) {
        0 => u32::MAX,
        1 if !hidden.is_empty() => *rng.pick(&hidden) as u32,
        _ => members.len() as u32,
    };
    vec![Entry::Open, Entry::Member(number), Entry::Null, Entry::Close]
}

/// Changes the bytes of a stream so that it is malformed; false where that did not come about.
pub(crate) fn malform(rng: &mut Rng, stream: &mut Vec<u8>) -> bool {
    let mut changed = stream.clone();
    match rng.below(5) {
        // a byte that no text speaks of
        0 => changed.push(b'x'),
        // cut short
        1 => drop(changed.pop()),
        // one entry more than there is
        2 => changed[0] = changed[0].wrapping_add(1),
        // no such kind
        3 => changed[4] = 12 + rng.below(244) as u8,
        // one of the three zeros
        _ => changed[5 + rng.below(3)] = 1,
    }
    let malformed = stream::decode(&changed).is_none();
    if malformed {
        *stream = changed;
    }
    malformed
}
