//! The options that `cases` and `compare` share, and the cases that they name.
//! It belongs to no paragraph of document 01.

use crate::cases::{Case, Kinds};
use crate::generate::Generator;
use crate::recorded;
use std::time::{Duration, Instant};

/// The cases that are asked where no limit is given.
const USUAL_COUNT: u64 = 10_000;
/// The books from which the recorded list is picked where no limit is given.
const RECORDED_BOOKS: u64 = 2_000;

/// What the command line says.
pub struct Options {
    pub seed: u64,
    pub kinds: Kinds,
    pub count: Option<u64>,
    pub books: Option<u64>,
    pub seconds: Option<u64>,
    pub text: bool,
    pub edges: bool,
    /// The recorded list instead of all generated cases.
    pub recorded: bool,
    /// A file of recorded cases.
    pub cases: Option<String>,
    /// What stands after the options.
    pub rest: Vec<String>,
}

impl Options {
    /// From the arguments; an error names the one that is wrong.
    pub fn parse(arguments: impl Iterator<Item = String>) -> Result<Options, String> {
        let mut options = Options {
            seed: 1,
            kinds: Kinds::all(),
            count: None,
            books: None,
            seconds: None,
            text: false,
            edges: false,
            recorded: false,
            cases: None,
            rest: Vec::new(),
        };
        let mut arguments = arguments.peekable();
        while let Some(option) = arguments.next_if(|a| a.starts_with("--")) {
            match option.as_str() {
                "--text" => options.text = true,
                "--edges" => options.edges = true,
                "--recorded" => options.recorded = true,
                _ => options.with_value(&option, arguments.next())?,
            }
        }
        options.rest = arguments.collect();
        Ok(options)
    }

    fn with_value(&mut self, option: &str, value: Option<String>) -> Result<(), String> {
        let value = value.ok_or_else(|| format!("{option} needs a value"))?;
        let number = || value.parse::<u64>().map_err(|_| format!("{option}: {value} is not a number"));
        match option {
            "--seed" => self.seed = number()?,
            "--count" => self.count = Some(number()?),
            "--books" => self.books = Some(number()?),
            "--seconds" => self.seconds = Some(number()?),
            "--kinds" => {
                self.kinds = Kinds::parse(&value).ok_or_else(|| format!("--kinds: {value} is not 1 to 10"))?;
            }
            "--cases" => self.cases = Some(value),
            _ => return Err(format!("unknown option {option}")),
        }
        Ok(())
    }

    /// The cases that are named: the generated ones, or the list that is picked from them.
    pub fn chosen(&self) -> Box<dyn Iterator<Item = Case>> {
        match self.recorded {
            true => Box::new(recorded::cases(self.generated(), self.kinds).into_iter()),
            false => Box::new(self.generated()),
        }
    }

    /// The generated cases up to the first limit that is reached.
    pub fn generated(&self) -> impl Iterator<Item = Case> + Send + use<> {
        let (mut count, mut books) = match self.count.or(self.books).or(self.seconds) {
            Some(_) => (self.count.unwrap_or(u64::MAX), self.books.unwrap_or(u64::MAX)),
            None if self.recorded => (u64::MAX, RECORDED_BOOKS),
            None => (USUAL_COUNT, u64::MAX),
        };
        let end = self.seconds.map(|s| Instant::now() + Duration::from_secs(s));
        Generator::new(self.seed, self.kinds).take_while(move |case| {
            if case.kind() == 1 {
                let late = end.is_some_and(|end| Instant::now() >= end);
                if late || books == 0 {
                    return false;
                }
                books -= 1;
            }
            count = count.wrapping_sub(1);
            count != u64::MAX
        })
    }
}
