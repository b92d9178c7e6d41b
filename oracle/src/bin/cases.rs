//! Prints cases: questions, each with what the Rust original answers.
//! The comparison domain, the last paragraph of "Refusal numbers" in document 01.

use oracle::options::Options;
use oracle::text;
use std::io::{self, BufWriter, Write};
use std::process::ExitCode;

const USAGE: &str = "usage: cases [--seed N] [--count N] [--books N] [--seconds N] [--kinds 1,2,..] [--recorded]
             [--text | --edges]";

fn main() -> ExitCode {
    let options = match Options::parse(std::env::args().skip(1)) {
        Ok(options) if options.rest.is_empty() && options.cases.is_none() => options,
        Ok(_) => return fail(USAGE),
        Err(message) => return fail(&message),
    };
    match print(&options) {
        Ok(()) => ExitCode::SUCCESS,
        Err(error) => fail(&error.to_string()),
    }
}

fn fail(message: &str) -> ExitCode {
    eprintln!("cases: {message}");
    ExitCode::from(2)
}

fn print(options: &Options) -> io::Result<()> {
    let mut out = BufWriter::with_capacity(1 << 16, io::stdout().lock());
    if options.edges {
        for (edge, times) in oracle::edges::count(options.chosen()) {
            writeln!(out, "{times:8} {edge}")?;
        }
        return out.flush();
    }
    for (number, case) in options.chosen().enumerate() {
        match options.text {
            true => writeln!(out, "{number} {}", text::case(&case, 64))?,
            false => case.write(&mut out)?,
        }
    }
    out.flush()
}
