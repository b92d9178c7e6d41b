//! The generator reaches every edge that it is aimed at, and stays where its expectations hold.

use oracle::book::{self, Places};
use oracle::cases::{Case, Kinds};
use oracle::edges;
use oracle::frames::{MOST, MOST_ROOM};
use oracle::generate::Generator;
use oracle::judge::{Expect, Judge};
use oracle::stream;

fn cases(seed: u64, count: usize) -> impl Iterator<Item = Case> {
    Generator::new(seed, Kinds::all()).take(count)
}

#[test]
fn every_edge_is_reached() {
    let counts = edges::count(cases(1, 20_000));
    let missed: Vec<_> = counts.iter().filter(|(_, times)| **times == 0).map(|(edge, _)| edge).collect();
    assert!(missed.is_empty(), "never reached: {missed:?}");
    assert!(counts.len() > 200);
}

/// Without books that aim at a refusal, their edges are missed: the count can fail.
#[test]
fn a_missed_edge_shows() {
    let lucky = cases(1, 20_000).filter(|case| case.aim.is_none());
    assert_eq!(edges::count(lucky)["refusal 12"], 0);
}

/// A refusal is expected wherever a fault was put in on purpose: by the original, where it can be asked at all.
#[test]
fn every_fault_is_refused() {
    for case in cases(2, 60_000).filter(|case| case.aim.is_some()) {
        let text = oracle::text::case(&case, 200);
        assert!(matches!(case.expect, Expect::Refused(_)), "not refused, though aimed at {:?}: {text}", case.aim);
    }
}

#[test]
fn books_decode_back() {
    for case in cases(3, 20_000).filter(|case| case.kind() == 1) {
        let types = book::decode(&case.question[9..]).expect("a drawn book is well formed");
        for places in [Places::Apart, Places::Shared, Places::Gaps, Places::Overlapping] {
            let again = book::encode(&types, places).expect("it was a book");
            assert_eq!(book::decode(&again).as_ref(), Some(&types));
        }
    }
}

/// Every stream, read or to be written, decodes to entries that encode to it again.
#[test]
fn streams_decode_back() {
    let mut seen = [0; 2];
    // but for those that were made malformed on purpose, whatever else is wrong with them
    for case in cases(4, 20_000).filter(|case| ![Some(14), Some(15), Some(17)].contains(&case.aim)) {
        let bytes = match (case.kind(), &case.expect) {
            (5, Expect::Bytes(bytes)) => bytes.clone(),
            (6, _) => {
                let length = u32::from_le_bytes(case.question[11..15].try_into().expect("four bytes"));
                case.question[15 + length as usize..].to_vec()
            }
            _ => continue,
        };
        let entries = stream::decode(&bytes).expect("a drawn stream is well formed");
        assert_eq!(stream::encode(&entries), bytes);
        seen[usize::from(case.kind()) - 5] += 1;
    }
    assert!(seen[0] > 1_000 && seen[1] > 1_000, "{seen:?}");
}

/// What is read, written over zeros, is the normal image: the stream holds all of the value, in its place.
#[test]
fn reading_then_writing_is_the_normal_image() {
    let mut judge = Judge::default();
    let mut seen = 0;
    for case in cases(5, 20_000) {
        let built = case.kind() == 1;
        let stream = match (&case.expect, case.kind()) {
            (Expect::Bytes(stream), 5) => stream,
            _ if built => {
                judge.answer(&case.question);
                continue;
            }
            _ => continue,
        };
        let (head, image) = (&case.question[1..11], &case.question[15..]);
        let length = (image.len() as u32).to_le_bytes();
        let write = [&[6], head, &length, &vec![0; image.len()], stream].concat();
        let normal = [&[9], head, image].concat();
        assert_eq!(judge.answer(&write), judge.answer(&normal));
        seen += 1;
    }
    assert!(seen > 1_000);
}

/// No question is longer than a frame, and no answer than its room.
#[test]
fn every_frame_fits() {
    let mut longest = 0;
    for case in cases(6, 60_000) {
        let (Expect::Bytes(bytes) | Expect::Refused(bytes) | Expect::Exactly { image: bytes, .. }) = &case.expect;
        assert!(case.question.len() <= MOST && bytes.len() <= MOST_ROOM);
        longest = longest.max(case.question.len());
    }
    assert!(longest > MOST / 2, "long values are asked for, too: {longest}");
}
