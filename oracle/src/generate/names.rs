//! Names by the rule: 1 to 40 bytes of 0x21..0x7E without `;`, distinct where they must be.
//! The second part of the paragraph "Declaration book" of document 01.

use crate::describe::ATOMICS;
use crate::rng::Rng;
use std::collections::HashSet;

const LETTERS: &[u8] = b"ABCDEFGHIJKLMNOPQRSTUVWXYZabcdefghijklmnopqrstuvwxyz0123456789_";
const PREDEFINED: [&str; 4] = ["TIMER", "COUNTER", "CONTROL", "STRING"];

/// An atomic's name.
pub(crate) fn atomic(rng: &mut Rng) -> &'static str {
    ATOMICS[rng.below(ATOMICS.len())]
}

/// A predefined type's name.
pub(crate) fn predefined(rng: &mut Rng) -> &'static str {
    PREDEFINED[rng.below(PREDEFINED.len())]
}

/// Remembers names without their case, so that the next one is new.
pub(crate) struct Names(HashSet<String>);

impl Names {
    pub(crate) fn of_types() -> Names {
        Names(ATOMICS.iter().chain(&PREDEFINED).map(|n| n.to_ascii_lowercase()).collect())
    }

    pub(crate) fn of_members() -> Names {
        Names(HashSet::new())
    }

    pub(crate) fn fresh(&mut self, rng: &mut Rng) -> String {
        loop {
            let name = any(rng);
            if self.0.insert(name.to_ascii_lowercase()) {
                return name;
            }
        }
    }
}

/// A name whose length is often 1, 10, 11 or 40: a host's name takes the first ten bytes of its type's.
fn any(rng: &mut Rng) -> String {
    let length = match rng.below(16) {
        0 => 1,
        1 => 40,
        2 => 10,
        3 => 11,
        4 => rng.between(12, 39),
        _ => rng.between(2, 9),
    };
    of_length(rng, length)
}

pub(crate) fn of_length(rng: &mut Rng, length: usize) -> String {
    let odd = rng.one_in(6);
    let byte = |rng: &mut Rng| match odd {
        true => loop {
            let b = rng.between(0x21, 0x7E) as u8;
            if b != b';' {
                return b;
            }
        },
        false => *rng.pick(LETTERS),
    };
    (0..length).map(|_| char::from(byte(rng))).collect()
}

/// The same name in some other case, for names compare without it.
pub(crate) fn recased(rng: &mut Rng, name: &str) -> String {
    match rng.below(4) {
        0 => name.to_ascii_lowercase(),
        1 => name.to_ascii_uppercase(),
        2 => name.chars().map(|c| if rng.one_in(2) { c.to_ascii_uppercase() } else { c }).collect(),
        _ => name.to_owned(),
    }
}
