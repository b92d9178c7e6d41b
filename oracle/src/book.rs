//! Declaration books: from the original's type declarations to a book's bytes, and back.
//! The paragraph "Declaration book" of document 01.

use crate::config::{MemberConfig, TypeConfig};
use crate::frames::Fields;

const ENTRY: usize = 16;
const AOI: u8 = 1;
const STRING: u8 = 2;
const ID: u8 = 4;

/// The three texts of the original for its access codes.
const ACCESS: [(u8, &str); 3] = [(0, "Read/Write"), (2, "Read Only"), (3, "None")];

/// The text for an access byte; one that no text stands for becomes a text that the original refuses.
pub fn access_text(code: u8) -> String {
    let known = ACCESS.iter().find(|(c, _)| *c == code);
    known.map_or_else(|| format!("access {code}"), |(_, text)| (*text).to_owned())
}

/// True for the original's own texts.
pub fn is_access(text: &str) -> bool {
    ACCESS.iter().any(|(_, t)| *t == text)
}

fn access_code(text: &str) -> Option<u8> {
    let known = ACCESS.iter().find(|(_, t)| *t == text).map(|(c, _)| *c);
    known.or_else(|| text.strip_prefix("access ")?.parse().ok())
}

/// Where names go in the bodies; a book may place them in many ways.
#[derive(Clone, Copy, PartialEq, Eq)]
pub enum Places {
    /// Each name in its own place, in order.
    Apart,
    /// A name that already stands somewhere in the bodies is not written again.
    Shared,
    /// Apart, with bytes between them that no entry speaks of.
    Gaps,
    /// Shared, and a name begins with the last bytes of the bodies where it can.
    Overlapping,
}

struct Bodies {
    start: usize,
    bytes: Vec<u8>,
    places: Places,
}

impl Bodies {
    fn place(&mut self, name: &str) -> usize {
        if self.places == Places::Gaps {
            self.bytes.extend([0xFF, 0, b';']);
        }
        let shared = matches!(self.places, Places::Shared | Places::Overlapping);
        if shared && !name.is_empty() {
            let found = self.bytes.windows(name.len()).position(|w| w == name.as_bytes());
            if let Some(at) = found {
                return self.start + at;
            }
        }
        let stands = if self.places == Places::Overlapping { self.overlap(name) } else { 0 };
        self.bytes.extend(&name.as_bytes()[stands..]);
        self.start + self.bytes.len() - name.len()
    }

    /// How many of the name's first bytes the bodies end with.
    fn overlap(&self, name: &str) -> usize {
        let most = name.len().min(self.bytes.len());
        (0..=most).rev().find(|n| self.bytes.ends_with(&name.as_bytes()[..*n])).unwrap_or(0)
    }
}

/// The book of these declarations, or what in them no book can say.
pub fn encode(types: &[TypeConfig], places: Places) -> Result<Vec<u8>, String> {
    let count: usize = types.iter().map(|t| t.members.len()).sum();
    let (Ok(t), Ok(m)) = (u16::try_from(types.len()), u16::try_from(count)) else {
        return Err(too_many(types));
    };
    let start = 4 + ENTRY * (types.len() + count);
    let mut bodies = Bodies { start, bytes: Vec::new(), places };
    let mut out = [t.to_le_bytes(), m.to_le_bytes()].concat();
    for config in types {
        type_entry(config, &mut bodies, &mut out)?;
    }
    for config in types {
        for member in &config.members {
            member_entry(config, member, &mut bodies, &mut out)?;
        }
    }
    out.append(&mut bodies.bytes);
    match u32::try_from(out.len()) {
        Ok(_) => Ok(out),
        Err(_) => Err(format!("the book would have {} bytes, more than a u32 can say", out.len())),
    }
}

/// Names the first type, or type and member, that no longer fits into the u16 counts.
fn too_many(types: &[TypeConfig]) -> String {
    if let Some(config) = types.get(65_535) {
        return format!("type {}: more than 65535 types", config.name);
    }
    let members = types.iter().flat_map(|t| t.members.iter().map(move |m| (t, m)));
    let (config, member) = members.skip(65_535).next().expect("one of the counts is too large");
    format!("type {}, member {}: more than 65535 members", config.name, member.name)
}

fn name_length(name: &str, place: &str) -> Result<u8, String> {
    let long = |_| format!("{place}: a name of {} bytes, more than 255", name.len());
    u8::try_from(name.len()).map_err(long)
}

fn type_entry(config: &TypeConfig, bodies: &mut Bodies, out: &mut Vec<u8>) -> Result<(), String> {
    let length = name_length(&config.name, &format!("type {}", config.name))?;
    let flag = |set: bool, bit: u8| if set { bit } else { 0 };
    let flags = flag(config.aoi, AOI) | flag(config.string.is_some(), STRING) | flag(config.template_id.is_some(), ID);
    out.extend((bodies.place(&config.name) as u32).to_le_bytes());
    out.extend([length, flags]);
    out.extend(config.template_id.unwrap_or(0).to_le_bytes());
    out.extend(config.string.unwrap_or(0).to_le_bytes());
    out.extend((config.members.len() as u16).to_le_bytes());
    out.extend([0, 0]);
    Ok(())
}

fn member_entry(
    config: &TypeConfig,
    member: &MemberConfig,
    bodies: &mut Bodies,
    out: &mut Vec<u8>,
) -> Result<(), String> {
    let place = format!("type {}, member {}", config.name, member.name);
    let length = name_length(&member.name, &place)?;
    let type_length = name_length(&member.data_type, &place)?;
    let unknown = || format!("{place}: external_access {:?} has no code", member.external_access);
    let access = access_code(&member.external_access).ok_or_else(unknown)?;
    out.extend((bodies.place(&member.name) as u32).to_le_bytes());
    out.extend([length, type_length, u8::from(member.local), access]);
    out.extend(member.dim.to_le_bytes());
    out.extend((bodies.place(&member.data_type) as u32).to_le_bytes());
    Ok(())
}

/// The declarations of a book; nothing where it is malformed, or a name is not UTF-8 and so none of the original's.
pub fn decode(book: &[u8]) -> Option<Vec<TypeConfig>> {
    let mut fields = Fields(book);
    let (t, m) = (fields.u16()? as usize, fields.u16()? as usize);
    let bodies = 4 + ENTRY * (t + m);
    let names = Names { book, bodies };
    let mut types = Vec::new();
    let mut counts = Vec::new();
    for _ in 0..t {
        let (config, count) = read_type(&mut fields, &names)?;
        types.push(config);
        counts.push(count);
    }
    if counts.iter().sum::<usize>() != m {
        return None;
    }
    for (config, count) in types.iter_mut().zip(counts) {
        for _ in 0..count {
            config.members.push(read_member(&mut fields, &names)?);
        }
    }
    Some(types)
}

struct Names<'a> {
    book: &'a [u8],
    bodies: usize,
}

impl Names<'_> {
    fn at(&self, place: u32, length: u8) -> Option<String> {
        let start = place as usize;
        let bytes = self.book.get(start..start + length as usize)?;
        let text = std::str::from_utf8(bytes).ok()?;
        (start >= self.bodies).then(|| text.to_owned())
    }
}

fn read_type(fields: &mut Fields, names: &Names) -> Option<(TypeConfig, usize)> {
    let (place, length, flags) = (fields.u32()?, fields.u8()?, fields.u8()?);
    let (id, string, count, zero) = (fields.u16()?, fields.u32()?, fields.u16()?, fields.u16()?);
    let unset = (flags & STRING == 0 && string != 0) || (flags & ID == 0 && id != 0);
    if zero != 0 || unset || flags & !(AOI | STRING | ID) != 0 {
        return None;
    }
    let config = TypeConfig {
        name: names.at(place, length)?,
        members: Vec::new(),
        aoi: flags & AOI != 0,
        string: (flags & STRING != 0).then_some(string),
        template_id: (flags & ID != 0).then_some(id),
    };
    Some((config, count as usize))
}

fn read_member(fields: &mut Fields, names: &Names) -> Option<MemberConfig> {
    let (place, length, type_length) = (fields.u32()?, fields.u8()?, fields.u8()?);
    let (local, access, dim, type_place) = (fields.u8()?, fields.u8()?, fields.u32()?, fields.u32()?);
    if local > 1 {
        return None;
    }
    let mut member = MemberConfig::array(&names.at(place, length)?, &names.at(type_place, type_length)?, dim);
    member.local = local == 1;
    member.external_access = access_text(access);
    Some(member)
}

/// The declarations of a book in words, a line for each type.
pub fn listing(book: &[u8]) -> Vec<String> {
    let Some(types) = decode(book) else {
        return vec![format!("a malformed book of {} bytes", book.len())];
    };
    types.iter().map(type_text).collect()
}

fn type_text(config: &TypeConfig) -> String {
    let kind = match (config.aoi, config.string) {
        (false, None) => "type".to_owned(),
        (true, None) => "AOI".to_owned(),
        (false, Some(n)) => format!("string[{n}]"),
        (true, Some(n)) => format!("AOI string[{n}]"),
    };
    let id = config.template_id.map_or(String::new(), |id| format!(" id {id:#x}"));
    let members: Vec<String> = config.members.iter().map(member_text).collect();
    format!("{kind} {:?}{id} {{{}}}", config.name, members.join(", "))
}

fn member_text(member: &MemberConfig) -> String {
    let dim = if member.dim == 0 { String::new() } else { format!("[{}]", member.dim) };
    let local = if member.local { " local" } else { "" };
    let access = match access_code(&member.external_access) {
        Some(0) => String::new(),
        _ => format!(" {:?}", member.external_access),
    };
    format!("{} {}{dim}{local}{access}", member.name, member.data_type)
}
