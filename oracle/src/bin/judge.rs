//! The Rust original itself behind the frames of questions and answers, so that the comparison can be tried on it.
//! Its refusals have no numbers: every one of them is 254 here.

use oracle::frames;
use oracle::judge::{Expect, Judge};
use std::io::{self, BufReader, BufWriter, Write};

/// `--damage N` flips the last bit of the answer of this number, so that a comparison has something to find.
fn damaged() -> Option<u64> {
    let mut arguments = std::env::args().skip(1);
    arguments.find(|a| a == "--damage")?;
    arguments.next()?.parse().ok()
}

fn answer(judge: &mut Judge, question: &[u8]) -> Vec<u8> {
    match judge.answer(question) {
        Some(Expect::Refused(image)) => [&[254, 0, 0, 0, 0], &image[..]].concat(),
        Some(one) => one.answer().unwrap_or_default(),
        None => vec![255, 0, 0, 0, 0],
    }
}

fn main() -> io::Result<()> {
    let damaged = damaged();
    let mut input = BufReader::with_capacity(1 << 16, io::stdin().lock());
    let mut out = BufWriter::with_capacity(1 << 16, io::stdout().lock());
    let mut judge = Judge::default();
    let mut number = 0;
    while let Some(question) = frames::read(&mut input)? {
        let mut answer = answer(&mut judge, &question);
        if damaged == Some(number)
            && let Some(last) = answer.last_mut()
        {
            *last ^= 1;
        }
        frames::write(&mut out, &answer)?;
        number += 1;
        // one who asks and waits gets the answer at once
        if input.buffer().is_empty() {
            out.flush()?;
        }
    }
    out.flush()
}
