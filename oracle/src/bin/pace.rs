//! The works whose pace is measured. `pace` lists them, each with the port's program and its entries; `pace ask N
//! TIMES` prints the port's questions of work N; `pace original N TIMES` does it with the original.

use oracle::pace::{WORKS, Work};
use std::io::{self, Write};

fn number(arguments: &mut impl Iterator<Item = String>) -> Option<usize> {
    arguments.next()?.parse().ok()
}

fn done() -> Option<()> {
    let mut arguments = std::env::args().skip(1);
    let Some(verb) = arguments.next() else {
        for (i, work) in WORKS.iter().enumerate() {
            println!("{i}|{}|{}|{}", work.program(), work.name, work.entries());
        }
        return Some(());
    };
    let work: &Work = WORKS.get(number(&mut arguments)?)?;
    let times = number(&mut arguments)?;
    match verb.as_str() {
        "ask" => io::stdout().write_all(&work.questions(times)).ok(),
        "original" => Some(work.original(times)),
        _ => None,
    }
}

fn main() {
    if done().is_none() {
        eprintln!("usage: pace [ask | original WORK TIMES]");
        std::process::exit(2);
    }
}
