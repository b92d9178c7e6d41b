//! The works whose pace is measured: for the port as questions, for the original as calls of its own.
//! It belongs to no paragraph of document 01.

use crate::book::{self, Places};
use crate::config::{MemberConfig, TypeConfig};
use crate::describe::type_word;
use crate::frames::{self, MOST_ROOM};
use crate::judge::{Judge, build_question};
use crate::model::{Ty, Types};
use std::hint::black_box;

/// The original's fold, which is private in its file.
mod fold {
    include!(concat!(env!("OUT_DIR"), "/fold.rs"));
}

/// What is done, again and again.
#[derive(Clone, Copy)]
enum What {
    Build,
    Handle(usize),
    Read(&'static str, u64),
    Write(&'static str, u64),
}

/// A work by its name.
pub struct Work {
    pub name: &'static str,
    types: fn() -> Vec<TypeConfig>,
    what: What,
}

const fn work(name: &'static str, types: fn() -> Vec<TypeConfig>, what: What) -> Work {
    Work { name, types, what }
}

/// All of them, in the table's order.
pub const WORKS: [Work; 19] = [
    work("build Chan", chan, What::Build),
    work("build 1,753 BOOLs", bools, What::Build),
    work("build 196 nested types", nested, What::Build),
    work("handle of 80 bytes", chan, What::Handle(80)),
    work("handle of 65,536 bytes", chan, What::Handle(65_536)),
    work("read 12 Chan", chan, What::Read("Chan", 12)),
    work("read 1,000 Chan", chan, What::Read("Chan", 1_000)),
    work("read DINT[98]", chan, What::Read("DINT", 98)),
    work("read DINT[1000]", chan, What::Read("DINT", 1_000)),
    work("read DWORD[1000]", chan, What::Read("DWORD", 1_000)),
    work("read STRING[100] of 80", chan, What::Read("STRING", 100)),
    work("read 196 levels", nested, What::Read("T195", 0)),
    work("write 12 Chan", chan, What::Write("Chan", 12)),
    work("write 1,000 Chan", chan, What::Write("Chan", 1_000)),
    work("write DINT[98]", chan, What::Write("DINT", 98)),
    work("write DINT[1000]", chan, What::Write("DINT", 1_000)),
    work("write DWORD[1000], bools", chan, What::Write("DWORD", 1_000)),
    work("write STRING[100] of 80", chan, What::Write("STRING", 100)),
    work("write 196 levels", nested, What::Write("T195", 0)),
];

fn chan() -> Vec<TypeConfig> {
    let members = [("Good", "BOOL"), ("Live", "BOOL"), ("Level", "INT")].map(|(name, t)| MemberConfig::new(name, t));
    vec![TypeConfig::udt("Chan", members)]
}

/// As many BOOLs as the tables hold beside the predefined types and their own hosts.
fn bools() -> Vec<TypeConfig> {
    let members: Vec<_> = (0..1_753).map(|i| MemberConfig::new(&format!("b{i}"), "BOOL")).collect();
    vec![TypeConfig::udt("Bools", members)]
}

fn nested() -> Vec<TypeConfig> {
    let inner = |i: usize| if i == 0 { "DINT".to_owned() } else { format!("T{}", i - 1) };
    (0..196).map(|i| TypeConfig::udt(&format!("T{i}"), [MemberConfig::new("a", &inner(i))])).collect()
}

/// As many bytes of any kind.
fn bytes(long: usize) -> Vec<u8> {
    (0..long).map(|i| (i * 37 + 11) as u8).collect()
}

/// A value's bytes: any bits, but texts of 80 characters.
fn image(types: &Types, ty: Ty, count: u64) -> Vec<u8> {
    let mut image = bytes(types.size(ty) * count.max(1) as usize);
    if ty == types.lookup("STRING").expect("it is predefined") {
        for string in image.chunks_mut(88) {
            string[..4].copy_from_slice(&80u32.to_le_bytes());
        }
    }
    image
}

impl Work {
    fn build(&self) -> Vec<u8> {
        build_question(&book::encode(&(self.types)(), Places::Apart).expect("it can be said"))
    }

    fn judge(&self) -> Judge {
        let mut judge = Judge::default();
        judge.answer(&self.build());
        judge
    }

    /// The type, count and bytes of a value.
    fn value(&self, judge: &Judge, name: &str, count: u64) -> (Ty, Vec<u8>) {
        let ty = judge.types.lookup(name).expect("the type is there");
        (ty, image(&judge.types, ty, count))
    }

    /// The work as one question, and how many entries it speaks of.
    fn question(&self) -> (Vec<u8>, u32) {
        let judge = self.judge();
        let head = |ty, count: u64| [&type_word(ty).to_le_bytes()[..], &count.to_le_bytes()].concat();
        match self.what {
            What::Build => (self.build(), 0),
            What::Handle(long) => (bytes(long), 0),
            What::Read(name, count) => {
                let (ty, image) = self.value(&judge, name, count);
                let stream = judge.stream(ty, count, &image).expect("there is no float");
                let room = (MOST_ROOM as u32).to_le_bytes();
                ([&[5], &head(ty, count)[..], &room, &image].concat(), entries(&stream))
            }
            What::Write(name, count) => {
                let (ty, image) = self.value(&judge, name, count);
                let stream = judge.stream(ty, count, &image).expect("there is no float");
                let length = (image.len() as u32).to_le_bytes();
                ([&[6], &head(ty, count)[..], &length, &image, &stream].concat(), entries(&stream))
            }
        }
    }

    pub fn entries(&self) -> u32 {
        self.question().1
    }

    /// The port's program that does it.
    pub fn program(&self) -> &'static str {
        match self.what {
            What::Handle(_) => "handles",
            _ => "answers",
        }
    }

    /// The port's input: a build, where the program takes one, and the question so many times.
    pub fn questions(&self, times: usize) -> Vec<u8> {
        let mut out = Vec::new();
        if self.program() == "answers" {
            frames::write(&mut out, &self.build()).expect("memory takes it");
        }
        let (question, _) = self.question();
        for _ in 0..times {
            frames::write(&mut out, &question).expect("memory takes it");
        }
        out
    }

    /// The original's calls, as many; what they need is made before.
    pub fn original(&self, times: usize) {
        let judge = self.judge();
        match self.what {
            What::Build => {
                let types = (self.types)();
                for _ in 0..times {
                    black_box(Types::build(black_box(&types)).is_ok());
                }
            }
            What::Handle(long) => {
                let template = bytes(long);
                for _ in 0..times {
                    black_box(fold::structure_handle(black_box(&template)));
                }
            }
            What::Read(name, count) => {
                let (ty, image) = self.value(&judge, name, count);
                for _ in 0..times {
                    black_box(judge.decoded(ty, count, black_box(&image)));
                }
            }
            What::Write(name, count) => {
                let (ty, mut image) = self.value(&judge, name, count);
                let json = judge.decoded(ty, count, &image);
                for _ in 0..times {
                    black_box(judge.encode_into(ty, count, black_box(&json), &mut image));
                }
            }
        }
    }
}

/// The number of a stream's entries stands first in it.
fn entries(stream: &[u8]) -> u32 {
    u32::from_le_bytes([stream[0], stream[1], stream[2], stream[3]])
}
