//! The recorded list: it is what stands in the port, and it holds every edge and every refusal.

use oracle::cases::Case;
use oracle::edges;
use oracle::judge::{Expect, Judge};
use oracle::options::Options;
use std::collections::BTreeSet;
use std::path::Path;

/// All kinds.
const KINDS: &str = "1,2,3,4,5,6,7,8,9,10";
/// The most bytes that the list may have.
const MOST: usize = 320_000;

fn options(kinds: &str) -> Options {
    let arguments = ["--recorded", "--kinds", kinds].map(str::to_owned);
    Options::parse(arguments.into_iter()).expect("these are options")
}

fn recorded() -> Vec<Case> {
    options(KINDS).chosen().collect()
}

#[test]
fn it_is_what_the_port_replays() {
    let path = Path::new(env!("CARGO_MANIFEST_DIR")).join("../crates/cases/stdin");
    let mut made = Vec::new();
    recorded().iter().for_each(|case| case.write(&mut made).expect("memory takes it"));
    assert!(made.len() <= MOST, "the list has {} bytes", made.len());
    assert!(std::fs::read(path).expect("it stands there") == made, "the oracle's README says how to make it anew");
}

/// Every edge that the generated cases reach.
#[test]
fn every_edge_is_in_it() {
    let all = edges::count(options(KINDS).generated());
    let few = edges::count(recorded().into_iter());
    let missed: Vec<_> = all.iter().filter(|(edge, times)| **times > 0 && few[*edge] == 0).collect();
    assert!(missed.is_empty(), "never reached: {missed:?}");
}

/// Every refusal of these kinds by its number; 6 is none, since the tables are full long before the ids are.
#[test]
fn every_refusal_is_in_it_by_its_number() {
    let number = |case: &Case| match case.expect {
        Expect::Exactly { number, .. } => Some(number),
        _ => None,
    };
    let numbers: BTreeSet<u8> = recorded().iter().filter_map(number).collect();
    let expected = (1..=24).filter(|n| *n != 6).chain([255]);
    assert_eq!(numbers, expected.collect());
}

/// What the document refuses the original refuses too, but for full tables and names outside the rule.
#[test]
fn the_original_refuses_what_the_document_does() {
    let mut judge = Judge::default();
    for case in recorded() {
        let answer = judge.answer(&case.question);
        if let Expect::Exactly { number, .. } = case.expect {
            let accepted = matches!(answer, Some(Expect::Bytes(_)));
            assert!(!accepted || [2, 13].contains(&number), "{}", oracle::text::case(&case, 200));
            assert_eq!(answer.is_none(), number == 255, "{}", oracle::text::case(&case, 200));
        }
    }
}

/// The normal images that are written out are what the original's values say.
#[test]
fn the_normal_images_are_the_originals() {
    let mut judge = Judge::default();
    for case in recorded() {
        let answer = judge.answer(&case.question);
        if let (9, Expect::Bytes(bytes)) = (case.kind(), &case.expect) {
            assert!(matches!(&answer, Some(Expect::Bytes(b)) if b == bytes), "{}", oracle::text::case(&case, 200));
        }
    }
}

#[test]
fn other_kinds_are_left_out() {
    let kinds: BTreeSet<u8> = options("2,8").chosen().map(|case| case.kind()).collect();
    assert_eq!(kinds, BTreeSet::from([0, 1, 2, 8, 254, 255]));
}
