//! The comparison itself: silent over the original's own answers, and not over damaged ones.

use oracle::cases::{Case, Kinds};
use oracle::comparing::{Outcome, agrees, compare};
use oracle::generate::Generator;
use oracle::judge::Expect;
use std::io::Cursor;

const SEED: u64 = 11;

fn cases(count: usize) -> impl Iterator<Item = Case> + Send {
    Generator::new(SEED, Kinds::all()).take(count)
}

fn run(arguments: &[&str], count: usize) -> Outcome {
    let mut command = vec![env!("CARGO_BIN_EXE_judge").to_owned()];
    command.extend(arguments.iter().map(|a| (*a).to_owned()));
    compare(&command, cases(count).map(Ok)).expect("the judge starts")
}

#[test]
fn the_original_agrees_with_itself() {
    let outcome = run(&[], 8_000);
    assert!(outcome.difference.is_none() && outcome.trouble.is_none());
    assert_eq!(outcome.tally.compared.iter().sum::<u64>(), 8_000);
    for kind in 1..=10 {
        assert!(outcome.tally.compared[kind] > outcome.tally.refused[kind], "kind {kind} is only refused");
        assert!(outcome.tally.refused[kind] > 0, "kind {kind} is never refused");
    }
}

/// One damaged answer of each kind is found, at its place.
#[test]
fn a_damaged_answer_is_found() {
    for kind in 1..=10 {
        let with_bytes = |c: &Case| matches!(&c.expect, Expect::Bytes(b) if !b.is_empty());
        let number = cases(2_000).position(|c| c.kind() == kind && with_bytes(&c)).expect("every kind is asked");
        let outcome = run(&["--damage", &number.to_string()], number + 200);
        let difference = outcome.difference.expect("the damage is seen");
        assert_eq!(difference.number, number as u64);
        assert_eq!(difference.case.kind(), kind);
        let report = difference.report().join("\n");
        assert!(report.contains("expected:") && report.contains("first different byte"), "{report}");
    }
}

#[test]
fn a_changed_image_after_a_refused_write_is_found() {
    let refused = |c: &Case| c.kind() == 6 && matches!(&c.expect, Expect::Refused(image) if !image.is_empty());
    let number = cases(5_000).position(|c| refused(&c)).expect("some write is refused");
    let outcome = run(&["--damage", &number.to_string()], number + 200);
    assert_eq!(outcome.difference.expect("the damage is seen").number, number as u64);
}

#[test]
fn an_early_end_is_found() {
    let outcome = compare(&["true".to_owned()], cases(100).map(Ok)).expect("true starts");
    let difference = outcome.difference.expect("there are no answers");
    assert!(difference.answer.is_none());
    assert_eq!(difference.number, 0);
}

#[test]
fn refusals_compare_only_as_such() {
    let refused = Case { question: vec![2, 9, 0], expect: Expect::Refused(Vec::new()), aim: None };
    assert!(agrees(&refused, &[15, 0, 0, 0, 0]));
    assert!(agrees(&refused, &[254, 7, 0, 0, 0]));
    assert!(!agrees(&refused, &[0, 0, 0, 0, 0]));
    assert!(!agrees(&refused, &[255, 0, 0, 0, 0]));
    assert!(!agrees(&refused, &[15, 0, 0]));
    let write = Case { question: vec![6], expect: Expect::Refused(vec![1, 2]), aim: None };
    assert!(agrees(&write, &[18, 0, 0, 0, 0, 1, 2]));
    assert!(!agrees(&write, &[18, 0, 0, 0, 0, 1, 3]));
    assert!(!agrees(&write, &[18, 0, 0, 0, 0]));
    let bytes = Case { question: vec![8], expect: Expect::Bytes(vec![0xC1, 0]), aim: None };
    assert!(agrees(&bytes, &[0, 0, 0, 0, 0, 0xC1, 0]));
    assert!(!agrees(&bytes, &[0, 1, 0, 0, 0, 0xC1, 0]));
    assert!(!agrees(&bytes, &[0, 0, 0, 0, 0, 0xC1, 0, 0]));
}

/// A refusal by its number and place, and for a write the image after it.
#[test]
fn an_exact_refusal_is_that_one() {
    let exactly = |number, place, image: &[u8]| Expect::Exactly { number, place, image: image.to_vec() };
    let build = Case { question: vec![1], expect: exactly(10, 2, &[]), aim: None };
    assert!(agrees(&build, &[10, 2, 0, 0, 0]));
    assert!(!agrees(&build, &[9, 2, 0, 0, 0]));
    assert!(!agrees(&build, &[10, 1, 0, 0, 0]));
    assert!(!agrees(&build, &[10, 2, 0, 0, 0, 0]));
    let write = Case { question: vec![6], expect: exactly(18, 0, &[7]), aim: None };
    assert!(agrees(&write, &[18, 0, 0, 0, 0, 7]));
    assert!(!agrees(&write, &[18, 0, 0, 0, 0]));
    let mut file = Vec::new();
    write.write(&mut file).expect("memory takes it");
    assert_eq!(file.len(), write.length());
    let again = Case::read(&mut Cursor::new(file)).expect("it is whole").expect("it is there");
    assert_eq!((again.question, again.expect), (write.question, write.expect));
}

#[test]
fn recorded_cases_are_the_same() {
    let mut file = Vec::new();
    cases(3_000).for_each(|case| case.write(&mut file).expect("memory takes it"));
    let mut file = Cursor::new(file);
    for case in cases(3_000) {
        let recorded = Case::read(&mut file).expect("it is whole").expect("it is there");
        assert_eq!((recorded.question, recorded.expect), (case.question, case.expect));
    }
    assert!(Case::read(&mut file).expect("it is whole").is_none());
}

/// Picking kinds leaves out questions and changes none.
#[test]
fn picked_kinds_ask_the_same() {
    let some = Kinds::parse("2,6").expect("these are kinds");
    let all: Vec<Case> = cases(4_000).filter(|c| [1, 2, 6].contains(&c.kind())).collect();
    for (picked, case) in Generator::new(SEED, some).zip(all) {
        assert_eq!(picked.question, case.question);
    }
}
