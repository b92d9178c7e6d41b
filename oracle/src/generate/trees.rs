//! Values to be written: a tree that becomes a stream for the port and JSON for the original.
//! "Writing" in the paragraph "Value stream" of document 01.

use super::images::{lreal, real};
use crate::describe::range;
use crate::model::{Atomic, StructKind, Ty, Types};
use crate::rng::Rng;
use crate::stream::Entry;
use crate::values::{float_json, text_json, visible};
use serde_json::Value as Json;

#[derive(Clone)]
pub(crate) enum Tree {
    Null,
    Bool(bool),
    Signed(i64),
    Unsigned(u64),
    Real(f32),
    LReal(f64),
    Text(Vec<u8>),
    /// Each member by its number and its name.
    Members(Vec<(u32, String, Tree)>),
    List(Vec<Tree>),
}

impl Tree {
    pub(crate) fn entries(&self, out: &mut Vec<Entry>) {
        match self {
            Tree::Null => out.push(Entry::Null),
            Tree::Bool(b) => out.push(Entry::Bool(*b)),
            Tree::Signed(n) => out.push(Entry::Signed(*n)),
            Tree::Unsigned(n) => out.push(Entry::Unsigned(*n)),
            Tree::Real(x) => out.push(Entry::Real(x.to_bits())),
            Tree::LReal(x) => out.push(Entry::LReal(x.to_bits())),
            Tree::Text(bytes) => out.push(Entry::Text(bytes.clone())),
            Tree::Members(members) => {
                out.push(Entry::Open);
                for (number, _, value) in members {
                    out.push(Entry::Member(*number));
                    value.entries(out);
                }
                out.push(Entry::Close);
            }
            Tree::List(items) => {
                out.push(Entry::ArrayOpen);
                items.iter().for_each(|item| item.entries(out));
                out.push(Entry::ArrayClose);
            }
        }
    }

    pub(crate) fn json(&self) -> Json {
        match self {
            Tree::Null => Json::Null,
            Tree::Bool(b) => Json::Bool(*b),
            Tree::Signed(n) => Json::from(*n),
            Tree::Unsigned(n) => Json::from(*n),
            Tree::Real(x) => float_json(f64::from(*x)).expect("only finite REALs are drawn"),
            Tree::LReal(x) => float_json(*x).expect("only finite LREALs are drawn"),
            Tree::Text(bytes) => text_json(bytes),
            Tree::Members(members) => {
                Json::Object(members.iter().map(|(_, name, value)| (name.clone(), value.json())).collect())
            }
            Tree::List(items) => Json::Array(items.iter().map(Tree::json).collect()),
        }
    }
}

/// Draws trees; where a refusal is aimed at, puts its fault in once, at a place that it suits.
pub(crate) struct Draw<'a> {
    pub rng: &'a mut Rng,
    pub types: &'a Types,
    pub aim: Option<u8>,
    /// The fault comes at one place in so many: the larger, the later in the stream.
    pub late: usize,
    /// The fault stands in the tree.
    pub done: bool,
}

impl Draw<'_> {
    /// True where the fault of this refusal is to be put in here.
    fn fault(&mut self, refusal: u8) -> bool {
        let here = self.aim == Some(refusal) && !self.done && self.rng.one_in(self.late);
        self.done |= here;
        here
    }

    /// A value of `count` elements, or one where it is 0.
    pub(crate) fn value(&mut self, ty: Ty, count: u64) -> Tree {
        if self.rng.one_in(12) {
            return Tree::Null;
        }
        match ty {
            Ty::Atomic(a) if a.is_bit_string() => self.bits(a, count as usize),
            _ if count > 0 => self.list(ty, count as usize),
            _ => self.single(ty, false),
        }
    }

    fn single(&mut self, ty: Ty, inside_array: bool) -> Tree {
        match ty {
            Ty::Atomic(a) => self.atomic(a),
            Ty::Struct(i) => self.structure(i, inside_array),
        }
    }

    /// How many elements to give: often all, one too many for refusal 20.
    fn length(&mut self, most: usize) -> usize {
        if self.fault(20) {
            return most + self.rng.between(1, 3);
        }
        match self.rng.below(5) {
            0 => 0,
            1 => most - 1,
            2 => self.rng.below(most + 1),
            _ => most,
        }
    }

    fn list(&mut self, ty: Ty, count: usize) -> Tree {
        let length = self.length(count);
        let nulls = self.rng.one_in(3);
        let item = |d: &mut Self| {
            if nulls && d.rng.one_in(3) { Tree::Null } else { d.single(ty, true) }
        };
        Tree::List((0..length).map(|_| item(self)).collect())
    }

    /// Bools for all bits of one or several bit strings, or whole numbers.
    fn bits(&mut self, a: Atomic, count: usize) -> Tree {
        let width = a.size() * 8;
        let numbers = self.rng.one_in(2) || (self.aim == Some(19) && !self.done);
        match (count, numbers) {
            (0, true) => self.integer(a),
            (_, true) => {
                let length = self.length(count);
                let item = |d: &mut Self| if d.rng.one_in(5) { Tree::Null } else { d.integer(a) };
                Tree::List((0..length).map(|_| item(self)).collect())
            }
            _ => {
                let length = self.length(width * count.max(1));
                Tree::List((0..length).map(|_| Tree::Bool(self.rng.one_in(2))).collect())
            }
        }
    }

    fn atomic(&mut self, a: Atomic) -> Tree {
        match a {
            Atomic::Bool => Tree::Bool(self.rng.one_in(2)),
            Atomic::Real => Tree::Real(real(self.rng)),
            Atomic::LReal => Tree::LReal(lreal(self.rng)),
            _ => self.integer(a),
        }
    }

    fn integer(&mut self, a: Atomic) -> Tree {
        let (low, high) = range(a).expect("only integers and bit strings come here");
        let far = 1 + i128::from(self.rng.next() >> (self.rng.between(1, 64) as u32).min(63));
        let beyond = *self.rng.pick(&[low - 1, high + 1, low - 1, high + 1, low - far, high + far]);
        if tree_of(self.rng, beyond).is_some() && self.fault(19) {
            return tree_of(self.rng, beyond).expect("it was one just now");
        }
        let wide = i128::from(self.rng.next()) << 1 | i128::from(self.rng.next() & 1);
        let within = match self.rng.below(6) {
            0 => low,
            1 => high,
            2 => 0,
            3 => (low + 1).min(high),
            4 => 1,
            _ => low + wide % (high - low + 1),
        };
        tree_of(self.rng, within).expect("every range lies in 64 bits, signed or not")
    }

    /// Anything but a text, a structure, or nothing: an array only where it is not itself in one.
    fn other(&mut self, inside_array: bool) -> Tree {
        match self.rng.below(if inside_array { 4 } else { 5 }) {
            0 => Tree::Bool(true),
            1 => Tree::Signed(-1),
            2 => Tree::Unsigned(7),
            3 => Tree::Real(1.5),
            _ => Tree::List(vec![Tree::Signed(1); self.rng.below(3)]),
        }
    }

    fn structure(&mut self, i: usize, inside_array: bool) -> Tree {
        let def = self.types.def(i);
        let string = def.kind == StructKind::Str;
        if self.fault(18) {
            return match self.rng.below(3) {
                0 if string => Tree::Members(Vec::new()),
                0 => Tree::Text(b"not a structure".to_vec()),
                _ => self.other(inside_array),
            };
        }
        if string {
            return self.text(def.string_length());
        }
        let all = self.rng.one_in(3);
        let mut members = Vec::new();
        for (number, m) in visible(&def.members) {
            if all || !self.rng.one_in(3) {
                // the original takes no null for a BOOL member
                let value = if m.bit.is_some() { self.atomic(Atomic::Bool) } else { self.value(m.ty, m.array.into()) };
                members.push((number as u32, m.name.clone(), value));
            }
        }
        if !all || self.rng.one_in(2) {
            self.rng.shuffle(&mut members);
        }
        Tree::Members(members)
    }

    fn text(&mut self, capacity: usize) -> Tree {
        let length = match self.rng.below(5) {
            _ if self.fault(21) => capacity + self.rng.between(1, 2),
            0 => 0,
            1 => capacity,
            2 => capacity - 1,
            _ => self.rng.below(capacity + 1),
        };
        Tree::Text(self.rng.bytes(length))
    }
}

/// A whole number as a signed or an unsigned entry; nothing where neither can say it.
fn tree_of(rng: &mut Rng, n: i128) -> Option<Tree> {
    match (i64::try_from(n), u64::try_from(n)) {
        (Ok(n), Err(_)) => Some(Tree::Signed(n)),
        (Err(_), Ok(n)) => Some(Tree::Unsigned(n)),
        (Ok(s), Ok(u)) => Some(if rng.one_in(2) { Tree::Signed(s) } else { Tree::Unsigned(u) }),
        _ => None,
    }
}
