//! Questions and expectations in words, for people.
//! It belongs to no paragraph of document 01: lines of `cases --text` and the report of `compare`.

use crate::book;
use crate::cases::Case;
use crate::frames::Fields;
use crate::judge::Expect;
use crate::stream;

pub const KINDS: [&str; 11] =
    ["", "build", "type", "template", "shape", "read", "write", "text", "header", "normal", "lookup"];

/// Bytes in hex, at most so many of them.
pub fn hex(bytes: &[u8], most: usize) -> String {
    let shown: Vec<String> = bytes.iter().take(most).map(|b| format!("{b:02x}")).collect();
    match bytes.len() > most {
        true => format!("{} .. ({} bytes)", shown.join(" "), bytes.len()),
        false => shown.join(" "),
    }
}

/// A question on one line.
pub fn question(bytes: &[u8], most: usize) -> String {
    let kind = bytes.first().copied().unwrap_or(0);
    let name = KINDS.get(usize::from(kind)).copied().unwrap_or("?");
    let body = bytes.get(1..).unwrap_or_default();
    let words = words(kind, &mut Fields(body), most);
    format!("{name} {}", words.unwrap_or_else(|| format!("cut short: {}", hex(body, most))))
}

fn words(kind: u8, q: &mut Fields, most: usize) -> Option<String> {
    Some(match kind {
        1 => {
            q.bytes(8)?;
            book::listing(q.rest()).join("; ")
        }
        2 => format!("{}", q.u16()?),
        3 => format!("of {:#06x}, room {}", q.u16()?, q.u32()?),
        4 => shape(q)?,
        5 => {
            let (word, count, room) = (q.u16()?, q.u64()?, q.u32()?);
            format!("{word:#06x} count {count} room {room} image {}", hex(q.rest(), most))
        }
        6 => write(q, most)?,
        7 => format!("of {:#06x} image {}", q.u16()?, hex(q.rest(), most)),
        8 => format!("of {:#06x}", q.u16()?),
        9 => format!("{:#06x} count {} image {}", q.u16()?, q.u64()?, hex(q.rest(), most)),
        10 => format!("\"{}\"", q.rest().escape_ascii()),
        _ => return None,
    })
}

fn shape(q: &mut Fields) -> Option<String> {
    let (word, n) = (q.u16()?, q.u8()?);
    let lengths: Option<Vec<u32>> = (0..n).map(|_| q.u32()).collect();
    Some(format!("of {word:#06x} lengths {:?}", lengths?))
}

fn write(q: &mut Fields, most: usize) -> Option<String> {
    let (word, count, length) = (q.u16()?, q.u64()?, q.u32()? as usize);
    let image = hex(q.bytes(length)?, most);
    let bytes = q.rest();
    let entries = match stream::decode(bytes) {
        Some(entries) => stream::text(&entries[..entries.len().min(most)]),
        None => format!("malformed {}", hex(bytes, most)),
    };
    Some(format!("{word:#06x} count {count} image {image} stream {entries}"))
}

/// A whole case on one line.
pub fn case(case: &Case, most: usize) -> String {
    let expect = match &case.expect {
        Expect::Bytes(bytes) => hex(bytes, most),
        Expect::Refused(_) => match case.aim {
            Some(number) => format!("refused, aimed at {number}"),
            None => "refused".to_owned(),
        },
        Expect::Exactly { number, place, .. } => format!("refused {number} at {place}"),
    };
    format!("{} -> {expect}", question(&case.question, most))
}
