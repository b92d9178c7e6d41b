//! A value stream's entries and their bytes.
//! The first part of the paragraph "Value stream" of document 01.

use crate::frames::Fields;

/// One entry; the numbers of the kinds are those of the document, from 0 in this order.
#[derive(Clone, Debug, PartialEq)]
pub enum Entry {
    Null,
    Bool(bool),
    Signed(i64),
    Unsigned(u64),
    /// The bits of a REAL.
    Real(u32),
    /// The bits of an LREAL.
    LReal(u64),
    Text(Vec<u8>),
    Member(u32),
    Open,
    Close,
    ArrayOpen,
    ArrayClose,
}

impl Entry {
    /// Kind and payload, a text's place being where the bodies have come to.
    fn raw(&self, place: usize) -> (u8, u64) {
        match self {
            Entry::Null => (0, 0),
            Entry::Bool(b) => (1, u64::from(*b)),
            Entry::Signed(n) => (2, *n as u64),
            Entry::Unsigned(n) => (3, *n),
            Entry::Real(bits) => (4, u64::from(*bits)),
            Entry::LReal(bits) => (5, *bits),
            Entry::Text(text) => (6, place as u64 | (text.len() as u64) << 32),
            Entry::Member(number) => (7, u64::from(*number)),
            Entry::Open => (8, 0),
            Entry::Close => (9, 0),
            Entry::ArrayOpen => (10, 0),
            Entry::ArrayClose => (11, 0),
        }
    }
}

/// The bytes of a stream.
pub fn encode(entries: &[Entry]) -> Vec<u8> {
    let mut out = Vec::with_capacity(4 + 12 * entries.len());
    let mut bodies = Vec::new();
    out.extend((entries.len() as u32).to_le_bytes());
    for entry in entries {
        let (kind, payload) = entry.raw(bodies.len());
        out.extend([kind, 0, 0, 0]);
        out.extend(payload.to_le_bytes());
        if let Entry::Text(text) = entry {
            bodies.extend(text);
        }
    }
    out.append(&mut bodies);
    out
}

/// The entries of a stream; nothing where it is malformed.
pub fn decode(stream: &[u8]) -> Option<Vec<Entry>> {
    let mut fields = Fields(stream);
    let n = fields.u32()? as usize;
    let mut table = Fields(fields.bytes(n.checked_mul(12)?)?);
    let bodies = fields.rest();
    let mut used = 0;
    let mut entries = Vec::with_capacity(n);
    for _ in 0..n {
        let (head, payload) = (table.u32()?, table.u64()?);
        entries.push(entry(head, payload, bodies, &mut used)?);
    }
    (used == bodies.len()).then_some(entries)
}

/// One entry from its kind word and payload; `used` is how far the texts before it reach into the bodies.
fn entry(head: u32, payload: u64, bodies: &[u8], used: &mut usize) -> Option<Entry> {
    let found = match head {
        0 => Entry::Null,
        1 => Entry::Bool(payload == 1),
        2 => Entry::Signed(payload as i64),
        3 => Entry::Unsigned(payload),
        4 => Entry::Real(payload as u32),
        5 => Entry::LReal(payload),
        6 => {
            let length = (payload >> 32) as usize;
            let text = bodies.get(*used..used.checked_add(length)?)?;
            Entry::Text(text.to_vec())
        }
        7 => Entry::Member(payload as u32),
        8 => Entry::Open,
        9 => Entry::Close,
        10 => Entry::ArrayOpen,
        11 => Entry::ArrayClose,
        _ => return None,
    };
    // the entry says what it holds and nothing more: unused payload is zero, a text stands where the last one ended
    let same = found.raw(*used) == (head as u8, payload);
    if let Entry::Text(text) = &found {
        *used += text.len();
    }
    same.then_some(found)
}

/// The entries in words, on one line.
pub fn text(entries: &[Entry]) -> String {
    let words: Vec<String> = entries.iter().map(entry_text).collect();
    words.join(" ")
}

fn entry_text(entry: &Entry) -> String {
    match entry {
        Entry::Null => "null".into(),
        Entry::Bool(b) => b.to_string(),
        Entry::Signed(n) => format!("s{n}"),
        Entry::Unsigned(n) => format!("u{n}"),
        Entry::Real(bits) => format!("REAL:{bits:08x}"),
        Entry::LReal(bits) => format!("LREAL:{bits:016x}"),
        Entry::Text(text) => format!("\"{}\"", text.escape_ascii()),
        Entry::Member(number) => format!(".{number}"),
        Entry::Open => "{".into(),
        Entry::Close => "}".into(),
        Entry::ArrayOpen => "[".into(),
        Entry::ArrayClose => "]".into(),
    }
}
