//! The original's answers to questions of the ten kinds: the judge of the port.
//! Every paragraph of document 01, seen through the frames.

use crate::book;
use crate::config::TagConfig;
use crate::describe::{describe, type_name, type_of, type_word};
use crate::frames::{Fields, MOST_ROOM};
use crate::model::{StructKind, Tag, Ty, Types};
use crate::stream;
use crate::values;
use serde_json::Value as Json;

/// The original's ids of TIMER, COUNTER, CONTROL and STRING.
pub const PREDEFINED: [u16; 4] = [0xF83, 0xF82, 0xF81, 0xFCE];

/// The question that builds this book, with the original's ids.
pub fn build_question(book: &[u8]) -> Vec<u8> {
    let ids = PREDEFINED.map(u16::to_le_bytes);
    [&[1], ids.as_flattened(), book].concat()
}

/// What is expected of an answer.
#[derive(Clone, Debug, PartialEq, Eq)]
pub enum Expect {
    /// No refusal, and exactly these bytes.
    Bytes(Vec<u8>),
    /// Any refusal; for a write these bytes, the image as it was, stand after it.
    Refused(Vec<u8>),
    /// Exactly this refusal, where the document alone decides; for a write the image, as it was, stands after it.
    Exactly { number: u8, place: u32, image: Vec<u8> },
}

impl Expect {
    fn of(found: Option<Vec<u8>>) -> Expect {
        found.map_or(Expect::Refused(Vec::new()), Expect::Bytes)
    }

    /// The one answer that is as expected; nothing where any refusal is.
    pub fn answer(&self) -> Option<Vec<u8>> {
        match self {
            Expect::Bytes(bytes) => Some(answer(0, 0, bytes)),
            Expect::Refused(_) => None,
            Expect::Exactly { number, place, image } => Some(answer(*number, *place, image)),
        }
    }
}

fn answer(number: u8, place: u32, body: &[u8]) -> Vec<u8> {
    [&[number], &place.to_le_bytes()[..], body].concat()
}

/// The tables of the last build; none after one that was refused.
#[derive(Default)]
pub struct Judge {
    pub(crate) types: Types,
}

impl Judge {
    /// The answer to a question; nothing for an unknown kind or a question too short for its fields.
    pub fn answer(&mut self, question: &[u8]) -> Option<Expect> {
        let mut q = Fields(question);
        match q.u8()? {
            1 => self.build(&mut q),
            2 => self.describe(&mut q),
            3 => self.template(&mut q),
            4 => self.shape(&mut q),
            5 => self.read(&mut q),
            6 => self.write(&mut q),
            7 => self.text(&mut q),
            8 => self.header(&mut q),
            9 => self.normal(&mut q),
            10 => Some(self.lookup(q.rest())),
            _ => None,
        }
    }

    /// The original has its own predefined ids, so it can speak only of those.
    fn build(&mut self, q: &mut Fields) -> Option<Expect> {
        let ids = [q.u16()?, q.u16()?, q.u16()?, q.u16()?];
        let declared = book::decode(q.rest()).filter(|_| ids == PREDEFINED);
        let built = declared.and_then(|types| Types::build(&types).ok());
        let count = built.as_ref().map(|t| (t.defs.len() as u16).to_le_bytes().to_vec());
        self.types = built.unwrap_or_default();
        Some(Expect::of(count))
    }

    fn describe(&self, q: &mut Fields) -> Option<Expect> {
        let i = usize::from(q.u16()?);
        Some(Expect::of((i < self.types.defs.len()).then(|| describe(&self.types, i))))
    }

    fn template(&self, q: &mut Fields) -> Option<Expect> {
        let (word, room) = (q.u16()?, q.u32()? as usize);
        let Some(Ty::Struct(i)) = type_of(&self.types, word) else {
            return Some(Expect::of(None));
        };
        let template = &self.types.def(i).template;
        Some(Expect::of((template.len() <= room.min(MOST_ROOM)).then(|| template.clone())))
    }

    fn shape(&self, q: &mut Fields) -> Option<Expect> {
        let (word, n) = (q.u16()?, q.u8()?);
        let mut dims = Vec::new();
        for _ in 0..n {
            dims.push(q.u32()?);
        }
        let tag = type_of(&self.types, word).and_then(|ty| self.tag(ty, &dims));
        Some(Expect::of(tag.map(|tag| self.shape_bytes(&tag))))
    }

    /// A tag without a value: of the original's tag only the shape is asked for.
    fn tag(&self, ty: Ty, dims: &[u32]) -> Option<Tag> {
        let config = TagConfig::new("t", type_name(&self.types, ty)).dims(dims);
        Tag::build(&self.types, &config, 1).ok()
    }

    fn shape_bytes(&self, tag: &Tag) -> Vec<u8> {
        let mut out = type_word(tag.ty).to_le_bytes().to_vec();
        out.push(tag.dims.len() as u8);
        for i in 0..3 {
            out.extend(tag.dims.get(i).copied().unwrap_or(0).to_le_bytes());
        }
        out.extend((tag.elements as u64).to_le_bytes());
        out.extend((tag.data.len() as u64).to_le_bytes());
        out.extend(tag.symbol_type(&self.types).to_le_bytes());
        out
    }

    /// The type of a word, where the image is as long as its value. The original takes that for granted and would
    /// panic; the document refuses with 15 and 14.
    fn value_type(&self, word: u16, count: u64, image: &[u8]) -> Option<Ty> {
        let ty = type_of(&self.types, word)?;
        let bytes = self.types.size(ty) as u128 * u128::from(count.max(1));
        (bytes == image.len() as u128).then_some(ty)
    }

    pub(crate) fn decoded(&self, ty: Ty, count: u64, image: &[u8]) -> Json {
        if count == 0 {
            return self.types.decode(ty, image);
        }
        self.types.decode_elements(ty, count as usize, image)
    }

    /// Writes as the original does; whether it took the value.
    pub(crate) fn encode_into(&self, ty: Ty, count: u64, json: &Json, out: &mut [u8]) -> bool {
        if count == 0 {
            return self.types.encode(ty, json, out).is_ok();
        }
        self.types.encode_elements(ty, count as usize, json, out).is_ok()
    }

    /// The image afterwards; on a refusal the original has written a part, so it counts only on success.
    pub(crate) fn encoded(&self, ty: Ty, count: u64, json: &Json, image: &[u8]) -> Option<Vec<u8>> {
        let mut out = image.to_vec();
        self.encode_into(ty, count, json, &mut out).then_some(out)
    }

    /// The stream that reading gives; nothing where a float is not finite.
    pub(crate) fn stream(&self, ty: Ty, count: u64, image: &[u8]) -> Option<Vec<u8>> {
        let json = self.decoded(ty, count, image);
        values::entries(&self.types, ty, count, &json).map(|entries| stream::encode(&entries))
    }

    fn read(&self, q: &mut Fields) -> Option<Expect> {
        let (word, count, room, image) = (q.u16()?, q.u64()?, q.u32()? as usize, q.rest());
        // An element takes an entry at least, so more elements than room have no stream; the original would try.
        let ty = self.value_type(word, count, image).filter(|_| count <= MOST_ROOM as u64);
        let found = ty.and_then(|ty| self.stream(ty, count, image));
        Some(Expect::of(found.filter(|s| s.len() <= room.min(MOST_ROOM))))
    }

    fn write(&self, q: &mut Fields) -> Option<Expect> {
        let (word, count, length) = (q.u16()?, q.u64()?, q.u32()? as usize);
        let image = q.bytes(length)?;
        let written = self.value_type(word, count, image).and_then(|ty| {
            let entries = stream::decode(q.rest())?;
            let json = values::json(&self.types, ty, count, &entries)?;
            self.encoded(ty, count, &json, image)
        });
        Some(written.map_or_else(|| Expect::Refused(image.to_vec()), Expect::Bytes))
    }

    fn text(&self, q: &mut Fields) -> Option<Expect> {
        let (word, image) = (q.u16()?, q.rest());
        let text = self.value_type(word, 0, image).and_then(|ty| {
            let string = matches!(ty, Ty::Struct(i) if self.types.def(i).kind == StructKind::Str);
            let json = string.then(|| self.types.decode(ty, image))?;
            values::latin1(json.as_str()?)
        });
        Some(Expect::of(text))
    }

    fn header(&self, q: &mut Fields) -> Option<Expect> {
        let ty = type_of(&self.types, q.u16()?);
        Some(Expect::of(ty.map(|ty| self.types.type_header(ty))))
    }

    /// On the comparison domain the document's normal image is what the original writes over zeros of what it
    /// reads: hidden hosts, padding and what lies after a text stay zero, all else goes through the JSON as it is.
    fn normal(&self, q: &mut Fields) -> Option<Expect> {
        let (word, count, image) = (q.u16()?, q.u64()?, q.rest());
        let normal = self.value_type(word, count, image).and_then(|ty| {
            let json = self.decoded(ty, count, image);
            // a float that is not finite has no JSON number: nothing to say
            values::entries(&self.types, ty, count, &json)?;
            self.encoded(ty, count, &json, &vec![0; image.len()])
        });
        Some(Expect::of(normal))
    }

    fn lookup(&self, name: &[u8]) -> Expect {
        let text = std::str::from_utf8(name).ok();
        let ty = text.and_then(|t| self.types.lookup(t));
        Expect::of(ty.map(|ty| type_word(ty).to_le_bytes().to_vec()))
    }
}
