//! Which edges cases reach, seen from their questions alone, so that a generator that misses one is found out.
//! The paragraphs "Reference cases" and "Refusal numbers" of document 01.

mod books;
mod questions;
mod values;

use crate::cases::Case;
use crate::judge::{Expect, Judge};
use std::collections::BTreeMap;

/// Every edge that is looked for, with how often the cases reach it; 0 where they never do.
pub fn count(cases: impl Iterator<Item = Case>) -> BTreeMap<String, u64> {
    let mut counts: BTreeMap<String, u64> = wanted().into_iter().map(|edge| (edge, 0)).collect();
    let mut watch = Watch::default();
    for case in cases {
        for edge in watch.reached(&case) {
            *counts.entry(edge).or_default() += 1;
        }
    }
    counts.insert("write: every byte in a text".into(), watch.texts.least());
    counts
}

/// The refusals that the comparison domain holds, and those around it that a case may aim at.
const REFUSALS: [u8; 20] = [2, 3, 4, 5, 7, 8, 9, 10, 11, 12, 14, 15, 16, 17, 18, 19, 20, 21, 23, 24];

fn wanted() -> Vec<String> {
    let mut all: Vec<String> = REFUSALS.iter().map(|n| format!("refusal {n}")).collect();
    all.extend(books::wanted());
    all.extend(questions::wanted());
    all.extend(values::wanted());
    all
}

/// Follows cases in their order, since a question speaks of the last build.
#[derive(Default)]
pub struct Watch {
    judge: Judge,
    texts: values::TextBytes,
}

impl Watch {
    /// The edges that the next case reaches.
    pub fn reached(&mut self, case: &Case) -> Vec<String> {
        let mut out: Vec<String> = refusal(case).iter().map(|number| format!("refusal {number}")).collect();
        let body = case.question.get(1..).unwrap_or_default();
        match case.kind() {
            1 => {
                self.judge.answer(&case.question);
                out.extend(books::reached(&self.judge.types, body.get(8..).unwrap_or_default(), !case.refused()));
            }
            kind @ (2..=4 | 8 | 10) => {
                out.extend(questions::reached(&self.judge.types, kind, body, !case.refused()));
            }
            5 | 7 | 9 => out.extend(values::read(&self.judge.types, case.kind(), body)),
            6 => out.extend(values::written(&self.judge.types, body, &mut self.texts)),
            _ => {}
        }
        out
    }
}

/// The refusal that is expected, or that the question aims at where any will do.
fn refusal(case: &Case) -> Option<u8> {
    match &case.expect {
        Expect::Bytes(_) => None,
        Expect::Refused(_) => case.aim,
        Expect::Exactly { number, .. } => Some(*number),
    }
}
