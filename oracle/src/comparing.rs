//! Asks a program the questions of cases and compares its answers with what is expected.
//! The comparison domain, the last paragraph of "Refusal numbers" in document 01.

use crate::book;
use crate::cases::Case;
use crate::frames;
use crate::judge::Expect;
use crate::text;
use std::io::{self, BufReader, BufWriter};
use std::process::{Child, ChildStdin, Command, Stdio};
use std::sync::mpsc::{Receiver, Sender, channel};
use std::thread;

/// How many bytes of an image or an answer a report shows.
const SHOWN: usize = 4_096;

/// How many cases of each kind were compared, and in how many a refusal was expected.
#[derive(Default, Clone)]
pub struct Tally {
    pub compared: [u64; 11],
    pub refused: [u64; 11],
}

impl Tally {
    fn add(&mut self, case: &Case) {
        let kind = usize::from(case.kind()).min(10);
        self.compared[kind] += 1;
        self.refused[kind] += u64::from(case.refused());
    }

    /// A line for each kind that was asked.
    pub fn lines(&self) -> Vec<String> {
        let asked = (1..=10).filter(|kind| self.compared[*kind] > 0);
        let line = |k: usize| {
            format!("kind {k:2} {:8} {:8} compared, {:7} refused", text::KINDS[k], self.compared[k], self.refused[k])
        };
        asked.map(line).collect()
    }
}

/// The first case whose answer was not as expected.
pub struct Difference {
    /// The number of the case, from 0.
    pub number: u64,
    pub case: Case,
    /// The last build's question.
    pub build: Vec<u8>,
    /// Nothing where the program ended before it, or its frame is cut short or too long.
    pub answer: Option<Vec<u8>>,
}

/// What a comparison found.
pub struct Outcome {
    pub tally: Tally,
    pub difference: Option<Difference>,
    /// What else was wrong: cases that could not be read, bytes after the last answer.
    pub trouble: Option<String>,
}

/// True where the answer is what is expected.
pub fn agrees(case: &Case, answer: &[u8]) -> bool {
    let Some((head, body)) = answer.split_at_checked(5) else {
        return false;
    };
    match &case.expect {
        Expect::Refused(image) => (1..=254).contains(&head[0]) && (case.kind() != 6 || body == image),
        one => one.answer().as_deref() == Some(answer),
    }
}

/// Runs the program over all the cases, up to the first difference.
pub fn compare(command: &[String], cases: impl Iterator<Item = io::Result<Case>> + Send) -> io::Result<Outcome> {
    let (program, arguments) = command.split_first().ok_or(io::ErrorKind::InvalidInput)?;
    let mut child = Command::new(program).args(arguments).stdin(Stdio::piped()).stdout(Stdio::piped()).spawn()?;
    let input = child.stdin.take().expect("its input is piped");
    let (sender, receiver) = channel();
    // one thread asks, one hears: neither waits for the other while a pipe is full
    thread::scope(|scope| {
        let feeder = scope.spawn(move || feed(cases, input, &sender));
        let mut outcome = hear(&mut child, &receiver);
        drop(receiver);
        if outcome.difference.is_some() {
            // nobody reads its answers any more
            let _ = child.kill();
        }
        let _ = child.wait();
        if let Err(error) = feeder.join().expect("the feeder does not panic") {
            outcome.trouble.get_or_insert(format!("reading cases: {error}"));
        }
        Ok(outcome)
    })
}

/// Asks until the cases end or nobody listens; an error only where a case cannot be read.
fn feed(cases: impl Iterator<Item = io::Result<Case>>, input: ChildStdin, sender: &Sender<Case>) -> io::Result<()> {
    let mut input = BufWriter::with_capacity(1 << 16, input);
    for case in cases {
        let case = case?;
        if frames::write(&mut input, &case.question).is_err() || sender.send(case).is_err() {
            break;
        }
    }
    Ok(())
}

fn hear(child: &mut Child, receiver: &Receiver<Case>) -> Outcome {
    let mut answers = BufReader::with_capacity(1 << 16, child.stdout.take().expect("its output is piped"));
    let mut outcome = Outcome { tally: Tally::default(), difference: None, trouble: None };
    let mut build = Vec::new();
    for (number, case) in receiver.iter().enumerate() {
        let answer = frames::read(&mut answers).unwrap_or(None);
        if case.kind() == 1 {
            build = case.question.clone();
        }
        if !answer.as_ref().is_some_and(|a| agrees(&case, a)) {
            outcome.difference = Some(Difference { number: number as u64, case, build, answer });
            return outcome;
        }
        outcome.tally.add(&case);
    }
    if !matches!(frames::read(&mut answers), Ok(None)) {
        outcome.trouble = Some("bytes after the last answer".to_owned());
    }
    outcome
}

impl Difference {
    /// The case in words: the book, the question, and both answers.
    pub fn report(&self) -> Vec<String> {
        let mut lines = vec![format!("difference at case {}", self.number), "book:".to_owned()];
        let book = self.build.get(9..).unwrap_or_default();
        lines.extend(book::listing(book).iter().map(|line| format!("  {line}")));
        lines.push(format!("question: {}", text::question(&self.case.question, SHOWN)));
        lines.push(format!("expected: {}", self.expected()));
        let got = self.answer.as_ref().map_or("no whole answer".to_owned(), |a| text::hex(a, SHOWN));
        lines.push(format!("got:      {got}"));
        if let Some(place) = self.first_byte() {
            lines.push(format!("first different byte of the answer: {place}"));
        }
        lines
    }

    fn expected(&self) -> String {
        match &self.case.expect {
            Expect::Refused(image) if self.case.kind() == 6 => {
                format!("a refusal, then the image as it was: {}", text::hex(image, SHOWN))
            }
            Expect::Refused(_) => "a refusal".to_owned(),
            one => text::hex(&one.answer().unwrap_or_default(), SHOWN),
        }
    }

    fn first_byte(&self) -> Option<usize> {
        let expected = self.case.expect.answer()?;
        let answer = self.answer.as_ref()?;
        let same = expected.iter().zip(answer).take_while(|(a, b)| a == b).count();
        Some(same)
    }
}
