//! How many entries a value of each type has, and which types' values can be compared.
//! The paragraph "Value stream" of document 01, and its comparison domain.

use crate::describe::atomics;
use crate::model::{Member, StructDef, StructKind, Ty, Types};
use crate::rng::Rng;
use crate::values::visible;

/// The most bytes of an image, and the most entries: both with a stream's texts stay below a frame.
const MOST_IMAGE: u128 = 65_536;
const MOST_ENTRIES: u128 = 75_000;

/// For each structure: the entries of one value, and whether the original's JSON can say all of it.
pub(crate) struct Sizes {
    entries: Vec<u128>,
    comparable: Vec<bool>,
}

impl Sizes {
    pub(crate) fn of(types: &Types) -> Sizes {
        let mut sizes = Sizes { entries: Vec::new(), comparable: Vec::new() };
        for def in &types.defs {
            let entries = sizes.structure(def);
            let comparable = sizes.sayable(def);
            sizes.entries.push(entries);
            sizes.comparable.push(comparable);
        }
        sizes
    }

    fn structure(&self, def: &StructDef) -> u128 {
        if def.kind == StructKind::Str {
            return 1;
        }
        let member = |m: &Member| 1 + self.entries(m.ty, m.array.into());
        visible(&def.members).map(|(_, m)| member(m)).fold(2, u128::saturating_add)
    }

    /// An AOI that declares EnableIn or EnableOut itself has two members of one name, and JSON but one place.
    fn sayable(&self, def: &StructDef) -> bool {
        let enables = |name: &str| visible(&def.members).filter(|(_, m)| m.name.eq_ignore_ascii_case(name)).count();
        let inner = |ty: Ty| matches!(ty, Ty::Struct(i) if !self.comparable[i]);
        let once = def.kind != StructKind::Aoi || (enables("EnableIn") == 1 && enables("EnableOut") == 1);
        once && !def.members.iter().any(|m| inner(m.ty))
    }

    /// The entries of `count` elements, or of one where it is 0.
    pub(crate) fn entries(&self, ty: Ty, count: u64) -> u128 {
        let (one, open_close) = match ty {
            Ty::Atomic(a) if a.is_bit_string() => (8 * a.size() as u128, 2),
            Ty::Atomic(_) => (1, if count > 0 { 2 } else { 0 }),
            Ty::Struct(i) => (self.entries[i], if count > 0 { 2 } else { 0 }),
        };
        one.saturating_mul(count.max(1).into()).saturating_add(open_close)
    }

    fn suits(&self, types: &Types, ty: Ty, count: u64, most: u128) -> bool {
        let comparable = !matches!(ty, Ty::Struct(i) if !self.comparable[i]);
        let bytes = types.size(ty) as u128 * u128::from(count.max(1));
        comparable && bytes <= MOST_IMAGE && self.entries(ty, count) <= most
    }

    /// As many elements as can be asked for.
    fn largest(&self, types: &Types, ty: Ty) -> u64 {
        let by_bytes = MOST_IMAGE / (types.size(ty) as u128).max(1);
        let by_entries = (MOST_ENTRIES - 2) / (self.entries(ty, 1) - 2).max(1);
        by_bytes.min(by_entries) as u64
    }

    /// A type and a count whose values can be asked for; mostly small ones.
    pub(crate) fn draw(&self, rng: &mut Rng, types: &Types) -> (Ty, u64) {
        let most = match rng.below(300) {
            0 => MOST_ENTRIES,
            1..=15 => 5_000,
            _ => 400,
        };
        for _ in 0..20 {
            let ty = any_type(rng, types);
            let count = match rng.below(10) {
                _ if most == MOST_ENTRIES => self.largest(types, ty),
                0..=4 => 0,
                5 => 1,
                6 => *rng.pick(&[31, 32, 33]),
                7 => rng.below(most as usize + 1) as u64,
                _ => rng.between(2, 9) as u64,
            };
            if self.suits(types, ty, count, most) {
                return (ty, count);
            }
        }
        (Ty::Atomic(atomics().next().expect("there are fifteen")), 0)
    }
}

/// Any type there is, the book's own ones most often.
pub(crate) fn any_type(rng: &mut Rng, types: &Types) -> Ty {
    let n = types.defs.len();
    match rng.below(8) {
        _ if n == 0 => atomic_type(rng),
        0 => atomic_type(rng),
        1 => Ty::Struct(rng.below(4)),
        _ if n == 4 => Ty::Struct(rng.below(4)),
        _ => Ty::Struct(rng.between(4, n - 1)),
    }
}

fn atomic_type(rng: &mut Rng) -> Ty {
    Ty::Atomic(atomics().nth(rng.below(15)).expect("there are fifteen"))
}
