//! The command line of the second formatter.

use std::fs::File;
use std::io::{self, BufRead, BufReader, BufWriter, Read, Write};
use std::process::ExitCode;

use second::generate::document;
use second::json::{to_hex, Json};
use second::number::{evaluate, is_change, round, DefaultScale, CELL, ROW};
use second::refusal::{Work, STORE_LENGTH};
use second::run::answered;
use second::session::Ending;
use second::state::State;
use second::vector::{Question, Vector};

const USAGE: &str = "usage: second batch              answer one JSON object a line from standard input
       second check [--least N] FILE..  run vector files (at least N vectors) and print the differences
       second format FILE          write the pages of a document to standard output
       second show FILE..          print vector files readably
       second generate SEED COUNT  write random documents, one JSON object a line
       second numbers              the values of arguments from standard input, one to a line, in units, cells and rows
       second runs                 format documents from standard input, one to a line, whole and in small blocks and rooms
A FILE may be - for standard input.";

/// Bad use, a file that cannot be read, or broken input: a message, and exit status 2.
struct Misuse(String);

impl From<io::Error> for Misuse {
    fn from(error: io::Error) -> Misuse {
        Misuse(error.to_string())
    }
}

fn main() -> ExitCode {
    let words: Result<Vec<String>, _> = std::env::args_os().skip(1).map(|word| word.into_string()).collect();
    let words = match words {
        Ok(words) => words,
        Err(word) => return misused(&format!("{}: not a word of UTF-8", word.to_string_lossy())),
    };
    let words: Vec<&str> = words.iter().map(String::as_str).collect();
    let result = match words.as_slice() {
        ["batch"] => batch(),
        ["check", "--least", least, files @ ..] if !files.is_empty() => {
            number(least).and_then(|least| check(files, least))
        }
        ["check", files @ ..] if !files.is_empty() => check(files, 1),
        ["format", file] => format(file),
        ["show", files @ ..] if !files.is_empty() => show(files),
        ["generate", seed, count] => generate(seed, count),
        ["numbers"] => numbers(),
        ["runs"] => runs(),
        _ => Err(Misuse(USAGE.to_string())),
    };
    result.unwrap_or_else(|Misuse(message)| misused(&message))
}

fn misused(message: &str) -> ExitCode {
    let _ = writeln!(io::stderr(), "second: {message}");
    ExitCode::from(2)
}

fn open(file: &str) -> Result<Box<dyn Read>, Misuse> {
    if file == "-" {
        return Ok(Box::new(io::stdin()));
    }
    let opened = File::open(file).map_err(|error| Misuse(format!("{file}: {error}")))?;
    Ok(Box::new(opened))
}

/// Calls `each` with every line of the file that is not blank, and with its number.
fn lines(file: &str, mut each: impl FnMut(usize, &str) -> Result<(), String>) -> Result<(), Misuse> {
    let mut reader = BufReader::with_capacity(1 << 16, open(file)?);
    let (mut line, mut number) = (String::new(), 0);
    loop {
        line.clear();
        number += 1;
        let place = |error: String| Misuse(format!("{file}: line {number}: {error}"));
        if reader.read_line(&mut line).map_err(|error| place(error.to_string()))? == 0 {
            return Ok(());
        }
        if !line.trim().is_empty() {
            each(number, &line).map_err(place)?;
        }
    }
}

fn batch() -> Result<ExitCode, Misuse> {
    let mut out = BufWriter::with_capacity(1 << 16, io::stdout().lock());
    let result = lines("-", |_, line| {
        let answer = Question::from_json(&Json::parse(line)?)?.answer().to_json();
        writeln!(out, "{answer}").map_err(|error| format!("the answer cannot be written: {error}"))
    });
    out.flush()?;
    result.map(|()| ExitCode::SUCCESS)
}

fn check(files: &[&str], least: u64) -> Result<ExitCode, Misuse> {
    let mut out = BufWriter::new(io::stdout().lock());
    let (mut passed, mut failed) = (0, 0);
    for file in files {
        let before = passed + failed;
        lines(file, |number, line| {
            let vector = Vector::parse(line)?;
            let Some(difference) = vector.difference() else {
                passed += 1;
                return Ok(());
            };
            failed += 1;
            write!(out, "{file}:{number}: {}\n{difference}", vector.name).map_err(|error| error.to_string())
        })?;
        // A file without a vector shows nothing, so it is no success.
        if passed + failed == before {
            failed += 1;
            writeln!(out, "{file}: no vectors")?;
        }
    }
    if passed + failed < least {
        failed += 1;
        writeln!(out, "fewer than {least} vectors")?;
    }
    writeln!(out, "{passed} passed, {failed} failed")?;
    out.flush()?;
    Ok(if failed == 0 { ExitCode::SUCCESS } else { ExitCode::from(1) })
}

fn show(files: &[&str]) -> Result<ExitCode, Misuse> {
    let mut out = BufWriter::new(io::stdout().lock());
    for file in files {
        lines(file, |number, line| {
            let vector = Vector::parse(line)?;
            write!(out, "{file}:{number}: {}\n{}", vector.name, vector.shown()).map_err(|error| error.to_string())
        })?;
    }
    out.flush()?;
    Ok(ExitCode::SUCCESS)
}

/// Reads the document in blocks and writes the pages as they come.
fn format(file: &str) -> Result<ExitCode, Misuse> {
    const BLOCK: usize = 1 << 16;
    let mut reader = open(file)?;
    let mut out = io::stdout().lock();
    let (mut state, mut block, mut pages) = (State::new(), vec![0; BLOCK], Vec::new());
    let (mut start, mut end, mut last) = (0, 0, false);
    loop {
        let answer = state.call(STORE_LENGTH, &block[start..end], last, BLOCK, &mut pages);
        start += answer.taken;
        out.write_all(&pages)?;
        pages.clear();
        match answer.ending {
            Ending::NeedsRoom => {}
            Ending::NeedsInput => {
                (start, end) = (0, reader.read(&mut block).map_err(|error| Misuse(format!("{file}: {error}")))?);
                last = end == 0;
            }
            Ending::Done => {
                out.flush()?;
                return Ok(ExitCode::SUCCESS);
            }
            Ending::Refused { number, line } => {
                out.flush()?;
                let _ = writeln!(io::stderr(), "refused {number} at line {line}");
                return Ok(ExitCode::from(1));
            }
        }
    }
}

fn numbers() -> Result<ExitCode, Misuse> {
    let mut input = Vec::new();
    io::stdin().lock().read_to_end(&mut input)?;
    let mut out = BufWriter::new(io::stdout().lock());
    let shown = |value: Work<i64>| value.map_or("refused".to_string(), |value| value.to_string());
    for line in input.strip_suffix(b"\n").unwrap_or(&input).split(|&byte| byte == b'\n') {
        let units = evaluate(line, DefaultScale::Units);
        let cells = evaluate(line, DefaultScale::Across).map(|value| round(value, CELL));
        let rows = evaluate(line, DefaultScale::Down).map(|value| round(value, ROW));
        let change = if is_change(line) { " a change" } else { "" };
        writeln!(out, "{} {} {}{change}", shown(units), shown(cells), shown(rows))?;
    }
    out.flush()?;
    Ok(ExitCode::SUCCESS)
}

fn runs() -> Result<ExitCode, Misuse> {
    let input = io::read_to_string(io::stdin())?;
    let mut out = BufWriter::with_capacity(1 << 16, io::stdout().lock());
    for (index, line) in input.split_terminator('\n').enumerate() {
        let answer = answered(line).map_err(|error| Misuse(format!("line {}: {error}", index + 1)))?;
        out.write_all(answer.as_bytes())?;
    }
    out.flush()?;
    Ok(ExitCode::SUCCESS)
}

fn number(word: &str) -> Result<u64, Misuse> {
    word.parse().map_err(|_| Misuse(format!("{word}: not a whole number")))
}

fn generate(seed: &str, count: &str) -> Result<ExitCode, Misuse> {
    let (seed, count) = (number(seed)?, number(count)?);
    let mut out = BufWriter::with_capacity(1 << 16, io::stdout().lock());
    for index in 0..count {
        let mut text = String::from("{\"doc\": \"");
        to_hex(&document(seed, index), &mut text);
        text.push_str("\"}\n");
        out.write_all(text.as_bytes())?;
    }
    out.flush()?;
    Ok(ExitCode::SUCCESS)
}
