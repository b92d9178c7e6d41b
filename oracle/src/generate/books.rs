//! Ordinary books: up to a dozen types of mixed members, some embedded in others, in any order.
//! The paragraph "Layout" of document 01.

use super::names::{self, Names, recased};
use crate::book::access_text;
use crate::config::{MemberConfig, TypeConfig};
use crate::rng::Rng;

/// Lengths at and around the places where a count of DWORDs changes.
const DIMS: [u32; 12] = [1, 2, 3, 4, 5, 8, 31, 32, 33, 63, 64, 65];
const RUNS: [usize; 9] = [1, 2, 3, 4, 7, 8, 9, 16, 17];

pub(crate) fn ordinary(rng: &mut Rng) -> Vec<TypeConfig> {
    let count = *rng.pick(&[0, 1, 1, 2, 2, 3, 4, 5, 6, 8, 12]);
    let mut names = Names::of_types();
    let mut types: Vec<TypeConfig> = Vec::new();
    for _ in 0..count {
        let name = names.fresh(rng);
        let mut config = one(rng, &name, &types);
        config.template_id = id(rng, &types);
        types.push(config);
    }
    if rng.one_in(2) {
        rng.shuffle(&mut types);
    }
    types
}

fn one(rng: &mut Rng, name: &str, earlier: &[TypeConfig]) -> TypeConfig {
    match rng.below(8) {
        0 => TypeConfig::string(name, *rng.pick(&[1, 2, 3, 4, 5, 8, 20, 82, 83, 255])),
        1 | 2 => TypeConfig::aoi(name, members(rng, earlier, true)),
        _ => TypeConfig::udt(name, members(rng, earlier, false)),
    }
}

/// Mostly none; otherwise one that no other type was given, though an id chosen for a type may meet it.
fn id(rng: &mut Rng, types: &[TypeConfig]) -> Option<u16> {
    let id = match rng.below(20) {
        0 => 0x100,
        1 => 0xEFF,
        2 => 0x102,
        3 | 4 => rng.between(0x180, 0xEFE) as u16,
        _ => return None,
    };
    types.iter().all(|t| t.template_id != Some(id)).then_some(id)
}

fn members(rng: &mut Rng, earlier: &[TypeConfig], aoi: bool) -> Vec<MemberConfig> {
    let mut names = Names::of_members();
    let mut out: Vec<MemberConfig> = Vec::new();
    for _ in 0..rng.below(9) {
        let (data_type, dim, run) = part(rng, earlier);
        for _ in 0..run {
            let name = if aoi && rng.one_in(150) { "enableIN".into() } else { names.fresh(rng) };
            if out.iter().all(|m| !m.name.eq_ignore_ascii_case(&name)) {
                out.push(settings(rng, MemberConfig::array(&name, &data_type, dim), aoi));
            }
        }
    }
    out
}

fn settings(rng: &mut Rng, mut member: MemberConfig, aoi: bool) -> MemberConfig {
    member.local = aoi && rng.one_in(4);
    member.external_access = access_text(*rng.pick(&[0, 0, 0, 2, 3]));
    member
}

/// A member's type, its dim, and how many like it follow one another.
fn part(rng: &mut Rng, earlier: &[TypeConfig]) -> (String, u32, usize) {
    let atomic = names::atomic(rng);
    match rng.below(10) {
        0..=2 => (recased(rng, "BOOL"), 0, *rng.pick(&RUNS)),
        3 => (recased(rng, "BOOL"), *rng.pick(&DIMS), 1),
        4 => (recased(rng, atomic), *rng.pick(&DIMS), 1),
        5 | 6 => structure(rng, earlier),
        _ => (recased(rng, atomic), 0, 1),
    }
}

fn structure(rng: &mut Rng, earlier: &[TypeConfig]) -> (String, u32, usize) {
    let name = match earlier.len() {
        n if n > 0 && !rng.one_in(4) => earlier[rng.below(n)].name.clone(),
        _ => names::predefined(rng).to_owned(),
    };
    (recased(rng, &name), *rng.pick(&[0, 0, 0, 1, 2, 3, 5]), 1)
}
