//! Compares a program that answers questions with the Rust original, case by case.
//! The comparison domain, the last paragraph of "Refusal numbers" in document 01.

use oracle::cases::Case;
use oracle::comparing::{Outcome, compare};
use oracle::options::Options;
use std::fs::File;
use std::io::{self, BufReader};
use std::process::ExitCode;

const USAGE: &str = "usage: compare [--seed N] [--count N] [--books N] [--seconds N] [--kinds 1,2,..] COMMAND [ARG..]
       compare --cases FILE COMMAND [ARG..]";

fn main() -> ExitCode {
    let options = match Options::parse(std::env::args().skip(1)) {
        Ok(options) if !options.rest.is_empty() => options,
        Ok(_) => return fail(USAGE),
        Err(message) => return fail(&message),
    };
    match run(&options) {
        Ok(outcome) => say(&options, &outcome),
        Err(error) => fail(&error.to_string()),
    }
}

fn fail(message: &str) -> ExitCode {
    eprintln!("compare: {message}");
    ExitCode::from(2)
}

fn run(options: &Options) -> io::Result<Outcome> {
    let Some(path) = &options.cases else {
        return compare(&options.rest, options.generated().map(Ok));
    };
    let mut file = BufReader::new(File::open(path)?);
    compare(&options.rest, std::iter::from_fn(move || Case::read(&mut file).transpose()))
}

fn say(options: &Options, outcome: &Outcome) -> ExitCode {
    outcome.tally.lines().iter().for_each(|line| println!("{line}"));
    if let Some(difference) = &outcome.difference {
        let source = options.cases.as_ref().map_or_else(|| format!("seed {}", options.seed), String::clone);
        println!("{source}");
        difference.report().iter().for_each(|line| println!("{line}"));
        return ExitCode::FAILURE;
    }
    if let Some(trouble) = &outcome.trouble {
        println!("{trouble}");
        return ExitCode::FAILURE;
    }
    let cases: u64 = outcome.tally.compared.iter().sum();
    println!("no difference in {cases} cases");
    ExitCode::SUCCESS
}
