//! The edges that a book reaches: runs of BOOLs, dims, names, ids, nesting, sizes and full tables.
//! The paragraphs "Declaration book" and "Layout" of document 01.

use crate::book;
use crate::config::{MemberConfig, TypeConfig};
use crate::describe::atomics;
use crate::generate::name_bytes;
use crate::model::{MAX_DATA_BYTES, StructDef, StructKind, Ty, Types};

/// A book as it was declared, and what the original made of it.
struct Seen<'a> {
    declared: &'a [TypeConfig],
    built: &'a Types,
    accepted: bool,
}

type Test = fn(&Seen) -> bool;

/// The most bytes that a member may reach to.
const LIMIT: u32 = MAX_DATA_BYTES as u32;

const EDGES: [(&str, Test); 48] = [
    ("eight BOOLs in a row", |s| s.run_of(8)),
    ("nine BOOLs in a row", |s| s.run_of(9)),
    ("BOOL after INT", |s| s.in_a_row(&["INT", "BOOL"])),
    ("BOOL SINT BOOL", |s| s.in_a_row(&["BOOL", "SINT", "BOOL"])),
    ("BOOL dim 31", |s| s.member(|m| is(m, "BOOL") && m.dim == 31)),
    ("BOOL dim 32", |s| s.member(|m| is(m, "BOOL") && m.dim == 32)),
    ("BOOL dim 33", |s| s.member(|m| is(m, "BOOL") && m.dim == 33)),
    ("AOI without members", |s| s.ok(|t| t.aoi && t.members.is_empty())),
    ("AOI with 30 BOOLs", |s| s.ok(|t| t.aoi && bools(t) == 30)),
    ("AOI with 31 BOOLs", |s| s.ok(|t| t.aoi && bools(t) == 31)),
    ("AOI with more than 62 BOOLs", |s| s.ok(|t| t.aoi && bools(t) > 62)),
    ("AOI that declares EnableIn", |s| s.ok(|t| t.aoi && t.members.iter().any(enable_in))),
    ("local member", |s| s.ok(|t| t.members.iter().any(|m| m.local))),
    ("nested 20 deep", |s| s.depth() >= 20),
    ("nested 196 deep", |s| s.depth() == 196),
    ("array of structures", |s| s.laid(|d| d.members.iter().any(|m| m.array > 1 && matches!(m.ty, Ty::Struct(_))))),
    ("type name of 1 byte", |s| s.ok(|t| t.name.len() == 1)),
    ("type name of 40 bytes", |s| s.ok(|t| t.name.len() == 40)),
    ("member name of 1 byte", |s| s.member(|m| m.name.len() == 1)),
    ("member name of 40 bytes", |s| s.member(|m| m.name.len() == 40)),
    ("type named in another case", |s| s.recased()),
    ("two names that differ in case only", |s| s.accepted && differ_in_case(s.declared)),
    ("id 0x100 given", |s| s.ok(|t| t.template_id == Some(0x100))),
    ("id 0xEFF given", |s| s.ok(|t| t.template_id == Some(0xEFF))),
    ("id 0xFF given", |s| s.no(|t| t.template_id == Some(0xFF))),
    ("id 0xF00 given", |s| s.no(|t| t.template_id == Some(0xF00))),
    ("an id is skipped that was given", |s| s.skipped_id()),
    ("SINT dim 2^26", |s| s.member(|m| is(m, "SINT") && m.dim == LIMIT)),
    ("SINT dim 2^26 + 1", |s| s.no(|t| t.members.iter().any(|m| is(m, "SINT") && m.dim == LIMIT + 1))),
    ("size 2^26", |s| s.laid(|d| d.size == LIMIT)),
    ("size 2^26 + 4", |s| s.laid(|d| d.size == LIMIT + 4)),
    ("size 2^26 + 220", |s| s.laid(|d| d.size == LIMIT + 220)),
    ("no byte, but 2^32 - 1 elements", |s| s.laid(|d| d.members.iter().any(|m| m.array == u32::MAX))),
    ("dim above 65535", |s| s.member(|m| m.dim > 65_535 && m.dim < 1 << 20)),
    ("type before its member type", |s| s.accepted && !in_order(s.declared)),
    ("string of capacity 1", |s| s.ok(|t| t.string == Some(1))),
    ("string of capacity 82", |s| s.ok(|t| t.string == Some(82))),
    ("string of capacity 2^26 - 4", |s| s.ok(|t| t.string == Some(LIMIT - 4))),
    ("string of capacity 2^26 - 3", |s| s.no(|t| t.string == Some(LIMIT - 3))),
    ("no members", |s| s.ok(|t| t.members.is_empty() && t.string.is_none())),
    ("no types", |s| s.declared.is_empty()),
    ("200 types", |s| s.built.defs.len() == 200),
    ("2000 members", |s| s.built.defs.iter().map(|d| d.members.len()).sum::<usize>() == 2_000),
    ("32768 bytes of names", |s| name_bytes(s.built) == 32_768),
    ("host with a number of three digits", |s| s.laid(|d| d.kind == StructKind::Udt && d.members.len() > 150)),
    ("access 2", |s| s.member(|m| m.external_access == book::access_text(2))),
    ("access 3", |s| s.member(|m| m.external_access == book::access_text(3))),
    ("member named as a host", |s| s.laid(named_as_host)),
];

pub(super) fn wanted() -> Vec<String> {
    let mut all: Vec<String> = EDGES.iter().map(|(name, _)| format!("book: {name}")).collect();
    for a in atomics() {
        all.push(format!("book: {} as a member", a.name()));
        all.push(format!("book: {} as an array", a.name()));
    }
    all
}

pub(super) fn reached(built: &Types, book: &[u8], accepted: bool) -> Vec<String> {
    let declared = book::decode(book).unwrap_or_default();
    let seen = Seen { declared: &declared, built, accepted };
    let mut out: Vec<String> =
        EDGES.iter().filter(|(_, test)| test(&seen)).map(|(name, _)| format!("book: {name}")).collect();
    for a in atomics() {
        if seen.member(|m| is(m, a.name()) && m.dim == 0) {
            out.push(format!("book: {} as a member", a.name()));
        }
        if seen.member(|m| is(m, a.name()) && m.dim > 0) {
            out.push(format!("book: {} as an array", a.name()));
        }
    }
    out
}

fn is(member: &MemberConfig, data_type: &str) -> bool {
    member.data_type.eq_ignore_ascii_case(data_type)
}

fn is_bool(member: &MemberConfig) -> bool {
    is(member, "BOOL") && member.dim == 0
}

fn bools(config: &TypeConfig) -> usize {
    config.members.iter().filter(|m| is_bool(m)).count()
}

fn enable_in(member: &MemberConfig) -> bool {
    member.name.eq_ignore_ascii_case("EnableIn")
}

fn differ_in_case(types: &[TypeConfig]) -> bool {
    let names: Vec<&String> = types.iter().take(20).flat_map(|t| t.members.iter().take(20).map(|m| &m.name)).collect();
    names.iter().any(|a| names.iter().any(|b| a != b && a.eq_ignore_ascii_case(b)))
}

/// Every member type that the book declares stands before the type that holds it.
fn in_order(types: &[TypeConfig]) -> bool {
    let place = |name: &str| types.iter().position(|t| t.name.eq_ignore_ascii_case(name));
    let holds =
        |(i, t): (usize, &TypeConfig)| t.members.iter().take(20).all(|m| place(&m.data_type).is_none_or(|at| at < i));
    types.iter().enumerate().all(holds)
}

fn named_as_host(def: &StructDef) -> bool {
    let hidden: Vec<_> = def.members.iter().filter(|m| m.hidden).map(|m| &m.name).collect();
    hidden.len() < 50 && def.members.iter().any(|m| !m.hidden && hidden.contains(&&m.name))
}

impl Seen<'_> {
    /// Some type of an accepted book is so.
    fn ok(&self, test: impl Fn(&TypeConfig) -> bool) -> bool {
        self.accepted && self.declared.iter().any(test)
    }

    /// Some type of a refused book is so.
    fn no(&self, test: impl Fn(&TypeConfig) -> bool) -> bool {
        !self.accepted && self.declared.iter().any(test)
    }

    fn member(&self, test: impl Fn(&MemberConfig) -> bool) -> bool {
        self.ok(|t| t.members.iter().any(&test))
    }

    /// Some type that the original laid out, the predefined ones left aside.
    fn laid(&self, test: impl Fn(&StructDef) -> bool) -> bool {
        self.built.defs.iter().skip(4).any(test)
    }

    fn run_of(&self, n: usize) -> bool {
        let exactly = |t: &TypeConfig| t.members.split(|m| !is_bool(m)).any(|run| run.len() == n);
        self.ok(|t| !t.aoi && exactly(t))
    }

    fn in_a_row(&self, names: &[&str]) -> bool {
        let same = |w: &[MemberConfig]| w.iter().zip(names).all(|(m, n)| is(m, n) && m.dim == 0);
        self.ok(|t| !t.aoi && t.members.windows(names.len()).any(same))
    }

    fn depth(&self) -> usize {
        let mut depths: Vec<usize> = Vec::new();
        for def in &self.built.defs {
            let inner = |ty: Ty| if let Ty::Struct(i) = ty { depths[i] } else { 0 };
            let deepest = def.members.iter().map(|m| inner(m.ty)).max().unwrap_or(0);
            depths.push(1 + deepest);
        }
        depths.into_iter().max().unwrap_or(0)
    }

    fn recased(&self) -> bool {
        let other = |m: &MemberConfig| {
            self.declared.iter().any(|t| t.name != m.data_type && t.name.eq_ignore_ascii_case(&m.data_type))
        };
        self.accepted && self.declared.iter().any(|t| t.members.iter().take(20).any(other))
    }

    /// A type without an id holds one above an id that another was given.
    fn skipped_id(&self) -> bool {
        let given: Vec<u16> = self.declared.iter().filter_map(|t| t.template_id).collect();
        let chosen = |d: &StructDef| !given.contains(&d.template_id) && given.contains(&(d.template_id - 1));
        self.laid(chosen)
    }
}
