//! A case: a question and what is expected of its answer; how cases are written and read, and which are asked.
//! The last paragraph of "Refusal numbers" in document 01: refusals compare only as such.

use crate::frames::{self, Fields};
use crate::judge::Expect;
use std::fmt;
use std::io::{self, ErrorKind, Read, Write};

/// A question with its expectation.
pub struct Case {
    pub question: Vec<u8>,
    pub expect: Expect,
    /// The refusal that the question aims at, where it has a fault on purpose.
    pub aim: Option<u8>,
}

impl Case {
    pub fn kind(&self) -> u8 {
        self.question.first().copied().unwrap_or(0)
    }

    /// True where a refusal is expected.
    pub fn refused(&self) -> bool {
        !matches!(self.expect, Expect::Bytes(_))
    }

    pub fn write(&self, out: &mut impl Write) -> io::Result<()> {
        frames::write(out, &self.question)?;
        frames::write(out, &self.expectation())
    }

    fn expectation(&self) -> Vec<u8> {
        match &self.expect {
            Expect::Bytes(bytes) => [&[0], &bytes[..]].concat(),
            Expect::Refused(image) => [&[1], &image[..]].concat(),
            Expect::Exactly { number, place, image } => [&[2, *number], &place.to_le_bytes()[..], &image[..]].concat(),
        }
    }

    /// How many bytes it is written with.
    pub fn length(&self) -> usize {
        4 + self.question.len() + 4 + self.expectation().len()
    }

    /// The next recorded case; nothing at the end.
    pub fn read(input: &mut impl Read) -> io::Result<Option<Case>> {
        let Some(question) = frames::read(input)? else {
            return Ok(None);
        };
        let expectation = frames::read(input)?.ok_or(ErrorKind::UnexpectedEof)?;
        let expect = expected(&mut Fields(&expectation));
        let expect =
            expect.ok_or_else(|| io::Error::new(ErrorKind::InvalidData, "an expectation has no known form"))?;
        Ok(Some(Case { question, expect, aim: None }))
    }
}

fn expected(fields: &mut Fields) -> Option<Expect> {
    Some(match fields.u8()? {
        0 => Expect::Bytes(fields.rest().to_vec()),
        1 => Expect::Refused(fields.rest().to_vec()),
        2 => Expect::Exactly { number: fields.u8()?, place: fields.u32()?, image: fields.rest().to_vec() },
        _ => return None,
    })
}

/// The kinds of questions that are asked; a build is always among them.
#[derive(Clone, Copy)]
pub struct Kinds(u16);

impl Kinds {
    pub fn all() -> Kinds {
        Kinds(0x7FE)
    }

    /// From numbers with commas between them.
    pub fn parse(text: &str) -> Option<Kinds> {
        let mut kinds = 1 << 1;
        for word in text.split(',') {
            let kind: u16 = word.trim().parse().ok()?;
            if !(1..=10).contains(&kind) {
                return None;
            }
            kinds |= 1 << kind;
        }
        Some(Kinds(kinds))
    }

    fn has(self, kind: u8) -> bool {
        self.0 & (1 << kind) != 0
    }

    /// True for a case of these kinds, and for one of no kind at all.
    pub(crate) fn asks(self, case: &Case) -> bool {
        !(1..=10).contains(&case.kind()) || self.has(case.kind())
    }

    /// Those that are asked about a built book.
    pub fn after_build(self) -> impl Iterator<Item = u8> {
        (2..=10).filter(move |kind| self.has(*kind))
    }
}

impl fmt::Display for Kinds {
    fn fmt(&self, f: &mut fmt::Formatter) -> fmt::Result {
        let numbers: Vec<String> = (1..=10).filter(|kind| self.has(*kind)).map(|kind| kind.to_string()).collect();
        f.write_str(&numbers.join(","))
    }
}
