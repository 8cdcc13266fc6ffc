//! Runs the program on whole documents, and compares its pages and its message with what a vector expects or the second
//! formatter gives.

use std::fs;
use std::io::{self, Write};
use std::process::{Command, ExitCode, Stdio};
use std::thread;

use second::generate::document;
use second::session::{pages, Ending};
use second::vector::{Outcome, Vector};

const USAGE: &str =
    "usage: program vectors PROGRAM LEAST FILE..   the vectors of whole documents, at least LEAST of them
       program random PROGRAM SEED COUNT      random documents, against the second formatter";

/// What the program wrote: its pages, and its message on standard error.
struct Written {
    pages: Vec<u8>,
    message: String,
}

fn run(program: &str, document: &[u8]) -> io::Result<Written> {
    let mut child =
        Command::new(program).stdin(Stdio::piped()).stdout(Stdio::piped()).stderr(Stdio::piped()).spawn()?;
    let input = child.stdin.take();
    let output = thread::scope(|scope| {
        // A session that is closed reads no further, so the rest of the document may find no reader.
        scope.spawn(move || input.map(|mut input| input.write_all(document)));
        child.wait_with_output()
    })?;
    Ok(Written { pages: output.stdout, message: String::from_utf8_lossy(&output.stderr).into_owned() })
}

/// Whether the message is that of the closing answer; the phrase behind the line number is the program's own.
fn says(message: &str, end: Ending) -> bool {
    match end {
        Ending::Done => message.is_empty(),
        Ending::Refused { number, line } => {
            let start = format!("rockavine: refused {number} at line {line}: ");
            message.strip_prefix(&start).is_some_and(|phrase| phrase.len() > 1 && phrase.ends_with('\n'))
        }
        Ending::NeedsInput | Ending::NeedsRoom => false,
    }
}

/// The counts of documents on which both agree and differ.
#[derive(Default)]
struct Counts {
    passed: u64,
    failed: u64,
}

impl Counts {
    fn compare(&mut self, program: &str, name: &str, document: &[u8], out: &[u8], end: Ending) -> io::Result<()> {
        let written = run(program, document)?;
        if written.pages == out && says(&written.message, end) {
            self.passed += 1;
            return Ok(());
        }
        self.failed += 1;
        println!(
            "{name}: expected {end:?} and {} bytes, got {:?} and {} bytes",
            out.len(),
            written.message,
            written.pages.len()
        );
        Ok(())
    }

    fn finish(&self) -> ExitCode {
        println!("{} passed, {} failed", self.passed, self.failed);
        ExitCode::from(u8::from(self.failed > 0))
    }
}

fn vectors(program: &str, least: u64, files: &[String]) -> io::Result<ExitCode> {
    let mut counts = Counts::default();
    for file in files {
        for (number, line) in fs::read_to_string(file)?.lines().enumerate() {
            let vector =
                Vector::parse(line).map_err(|error| io::Error::other(format!("{file}:{}: {error}", number + 1)))?;
            let Outcome::Whole { out, end } = &vector.expected else {
                continue;
            };
            if vector.question.store == second::refusal::STORE_LENGTH {
                counts.compare(program, &vector.name, &vector.question.document, out, *end)?;
            }
        }
    }
    if counts.passed + counts.failed < least {
        println!("fewer than {least} vectors of whole documents");
        counts.failed += 1;
    }
    Ok(counts.finish())
}

fn random(program: &str, seed: u64, count: u64) -> io::Result<ExitCode> {
    let mut counts = Counts::default();
    for index in 0..count {
        let document = document(seed, index);
        let (out, end) = pages(&document);
        counts.compare(program, &format!("seed {seed}, document {index}"), &document, &out, end)?;
    }
    Ok(counts.finish())
}

fn number(word: &str) -> io::Result<u64> {
    word.parse().map_err(|_| io::Error::other(format!("{word}: not a number")))
}

fn main() -> ExitCode {
    let words: Vec<String> = std::env::args().skip(1).collect();
    let result = match words.as_slice() {
        [command, program, least, files @ ..] if command == "vectors" && !files.is_empty() => {
            number(least).and_then(|least| vectors(program, least, files))
        }
        [command, program, seed, count] if command == "random" => {
            number(seed).and_then(|seed| number(count).and_then(|count| random(program, seed, count)))
        }
        _ => Err(io::Error::other(USAGE)),
    };
    result.unwrap_or_else(|error| {
        eprintln!("program: {error}");
        ExitCode::from(2)
    })
}
