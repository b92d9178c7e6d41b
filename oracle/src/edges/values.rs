//! The edges that values reach: text lengths, the ends of integer ranges, short arrays, nulls, order of members.
//! The paragraph "Value stream" of document 01.

use crate::describe::{atomics, range, type_of};
use crate::frames::Fields;
use crate::model::{Atomic, StructKind, Ty, Types};
use crate::stream::{self, Entry};

const EDGES: [&str; 28] = [
    "read: one value",
    "read: array",
    "read: structure",
    "read: LEN 0",
    "read: LEN at the capacity",
    "read: LEN one above the capacity",
    "read: LEN FFFFFFFF",
    "normal: one value",
    "normal: array",
    "normal: structure",
    "normal: BOOL alone",
    "normal: LEN at the capacity",
    "normal: LEN one above the capacity",
    "normal: LEN FFFFFFFF",
    "text: LEN one above the capacity",
    "text: LEN FFFFFFFF",
    "write: nothing but null",
    "write: null in an array",
    "write: null for a member",
    "write: short array",
    "write: empty array",
    "write: members out of order",
    "write: bit string of bools",
    "write: bit strings of bools, some missing",
    "write: bit strings of numbers",
    "write: empty text",
    "write: text of the capacity",
    "write: text one above the capacity",
];

pub(super) fn wanted() -> Vec<String> {
    let mut all: Vec<String> = EDGES.iter().map(|e| (*e).to_owned()).collect();
    for a in atomics() {
        all.push(format!("read: {} alone", a.name()));
        let sayable = |n: &i128| *n >= i64::MIN.into() && *n <= u64::MAX.into();
        all.extend(ends(a).iter().filter(|n| sayable(n)).map(|n| format!("write: {n} for {}", a.name())));
    }
    all
}

/// Both ends of what an atomic takes, and one beyond each; nothing for BOOL and floats.
fn ends(a: Atomic) -> Vec<i128> {
    range(a).map_or(Vec::new(), |(low, high)| vec![low - 1, low, high, high + 1])
}

/// How often each byte stood in a text that was written.
pub(super) struct TextBytes([u64; 256]);

impl Default for TextBytes {
    fn default() -> TextBytes {
        TextBytes([0; 256])
    }
}

impl TextBytes {
    pub(super) fn least(&self) -> u64 {
        self.0.iter().copied().min().unwrap_or(0)
    }
}

/// Questions of the kinds 5, 7 and 9.
pub(super) fn read(types: &Types, kind: u8, body: &[u8]) -> Vec<String> {
    let mut q = Fields(body);
    let Some(ty) = q.u16().and_then(|word| type_of(types, word)) else {
        return Vec::new();
    };
    let count = if kind == 7 { 0 } else { q.u64().unwrap_or(0) };
    if kind == 5 {
        q.u32();
    }
    let verb = ["read", "text", "normal"][usize::from(kind - 5) / 2];
    let mut out = vec![format!("{verb}: {}", if count > 0 { "array" } else { "one value" })];
    match ty {
        Ty::Atomic(a) => out.push(format!("{verb}: {} alone", a.name())),
        Ty::Struct(i) if types.def(i).kind == StructKind::Str => {
            let len = q.u32().unwrap_or(0);
            out.extend(length(len, types.def(i).string_length() as u32).map(|name| format!("{verb}: {name}")));
        }
        Ty::Struct(_) => out.push(format!("{verb}: structure")),
    }
    out
}

fn length(len: u32, capacity: u32) -> Option<&'static str> {
    match len {
        0 => Some("LEN 0"),
        u32::MAX => Some("LEN FFFFFFFF"),
        n if n == capacity => Some("LEN at the capacity"),
        n if n == capacity + 1 => Some("LEN one above the capacity"),
        _ => None,
    }
}

/// Questions of kind 6.
pub(super) fn written(types: &Types, body: &[u8], texts: &mut TextBytes) -> Vec<String> {
    let mut walk = Walk { types, left: &[], out: Vec::new(), texts };
    let mut q = Fields(body);
    let (Some(word), Some(count), Some(length)) = (q.u16(), q.u64(), q.u32()) else {
        return Vec::new();
    };
    q.bytes(length as usize);
    let (Some(ty), Some(entries)) = (type_of(types, word), stream::decode(q.rest())) else {
        return Vec::new();
    };
    if entries == [Entry::Null] {
        walk.out.push("nothing but null".into());
    }
    walk.left = &entries;
    walk.value(ty, count);
    walk.out.iter().map(|edge| format!("write: {edge}")).collect()
}

/// Goes through a stream along its type, as far as the two agree.
struct Walk<'a> {
    types: &'a Types,
    left: &'a [Entry],
    out: Vec<String>,
    texts: &'a mut TextBytes,
}

impl<'a> Walk<'a> {
    fn next(&mut self) -> Option<&'a Entry> {
        let (first, rest) = self.left.split_first()?;
        self.left = rest;
        Some(first)
    }

    fn say(&mut self, edge: &str) {
        self.out.push(edge.to_owned());
    }

    fn value(&mut self, ty: Ty, count: u64) -> Option<()> {
        let entry = self.next()?;
        match (entry, ty) {
            (Entry::Null, _) => {}
            (Entry::ArrayOpen, Ty::Atomic(a)) if a.is_bit_string() => self.bits(a, count)?,
            (Entry::ArrayOpen, _) if count > 0 => self.array(ty, count)?,
            (Entry::Open, Ty::Struct(i)) => self.members(i)?,
            (Entry::Text(text), Ty::Struct(i)) => self.text(text, self.types.def(i).string_length()),
            (Entry::Signed(n), Ty::Atomic(a)) => self.number(a, (*n).into()),
            (Entry::Unsigned(n), Ty::Atomic(a)) => self.number(a, (*n).into()),
            (Entry::Bool(_) | Entry::Real(_) | Entry::LReal(_), Ty::Atomic(_)) => {}
            _ => return None,
        }
        Some(())
    }

    fn number(&mut self, a: Atomic, n: i128) {
        if ends(a).contains(&n) {
            self.out.push(format!("{n} for {}", a.name()));
        }
    }

    fn array(&mut self, ty: Ty, count: u64) -> Option<()> {
        let mut given = 0;
        while self.left.first()? != &Entry::ArrayClose {
            if self.left.first()? == &Entry::Null {
                self.say("null in an array");
            }
            self.value(ty, 0)?;
            given += 1;
        }
        if given < count {
            self.say(if given == 0 { "empty array" } else { "short array" });
        }
        self.next().map(|_| ())
    }

    fn bits(&mut self, a: Atomic, count: u64) -> Option<()> {
        if !matches!(self.left.first()?, Entry::Bool(_)) {
            if count > 0 && matches!(self.left.first()?, Entry::Signed(_) | Entry::Unsigned(_)) {
                self.say("bit strings of numbers");
            }
            return self.array(Ty::Atomic(a), count);
        }
        let mut given = 0;
        while matches!(self.next()?, Entry::Bool(_)) {
            given += 1;
        }
        match count {
            0 => self.say("bit string of bools"),
            _ if given < count * 8 * a.size() as u64 => self.say("bit strings of bools, some missing"),
            _ => {}
        }
        Some(())
    }

    fn members(&mut self, i: usize) -> Option<()> {
        let mut last = 0;
        while let Entry::Member(number) = self.next()? {
            let m = self.types.def(i).members.get(*number as usize)?;
            if *number < last {
                self.say("members out of order");
            }
            last = *number;
            if self.left.first()? == &Entry::Null {
                self.say("null for a member");
            }
            self.value(m.ty, m.array.into())?;
        }
        Some(())
    }

    fn text(&mut self, text: &[u8], capacity: usize) {
        for byte in text {
            self.texts.0[usize::from(*byte)] += 1;
        }
        match text.len() {
            0 => self.say("empty text"),
            n if n == capacity => self.say("text of the capacity"),
            n if n == capacity + 1 => self.say("text one above the capacity"),
            _ => {}
        }
    }
}
