//! Writes vectors as statements about the definitions of crates/rules: for each document, that its pages and closing
//! answer are those expected, to be checked by computation. It knows names of those definitions and no rule.
//!
//! usage: statements DIRECTORY COUNT LONGEST FILE..
//!
//! The first COUNT vectors of which neither source nor pages is longer than LONGEST become the modules E1, E2, .. in
//! DIRECTORY, with a Lib that names them. Standard output has a line for each vector: its module, the line of its
//! statement there, and where it comes from.

use std::fs::{self, File};
use std::io::{self, BufRead, BufReader, BufWriter, Read, Write};
use std::path::Path;
use std::process::ExitCode;

use second::refusal::STORE_LENGTH;
use second::session::{Answer, Ending};
use second::vector::{Outcome, Vector};

const HEAD: &str = "-- Vectors as statements, by computation.
use mathlib.Core.Path.{◌≡◌, refl}
use mathlib.Core.Bool.{Bool, true, false}
use mathlib.Core.List.{List, [], ◌∷◌}
use Prim.Native.Nat.{ℕ}
use lib.ListN.{length, take, drop}
use Rattle.rules.specs.Bytes.{bytes}
use Rattle.rules.specs.Printers.{ten_to_the_inch}
use Rattle.rules.specs.State.{State, start}
use Rattle.rules.specs.Load.{formatter}
use Rattle.rules.specs.Laws.Whole.{pages_here}
use Rattle.stream.specs.Answers.{Closing, done, refused, ReplyKind, needs_input, needs_room, closes}
use Rattle.stream.specs.Machine.{call_from}

abbrev Gives : List ℕ → List ℕ → Closing → Type 0
Gives d w a = pages_here d ≡ record { bytes = w; answer = closes a }

-- a call lends so many bytes, a last mark and room; it is answered by bytes taken, bytes written and a reply
record Lent : Type 0 where
  block : ℕ
  last : Bool
  room : ℕ

abbrev lent : ℕ → Bool → ℕ → Lent
lent b l r = record { block = b; last = l; room = r }

record Told : Type 0 where
  taken : ℕ
  written : List ℕ
  reply : ReplyKind

abbrev told : ℕ → List ℕ → ReplyKind → Told
told t w a = record { taken = t; written = w; reply = a }

-- a block begins at the first byte not taken, and ends with the document at the latest
unfoldable answers : List ℕ → State → List ℕ → List Lent → List Told
answers ws s d [] = []
answers ws s d (c ∷ cs) =
    let o = call_from (formatter ten_to_the_inch) ws s (take c.block d) c.last c.room in
    told (length o.took) o.bytes o.answer ∷ answers o.waiting o.state (drop (length o.took) d) cs
";

/// The bytes as a quoted text of the checker.
fn quoted(bytes: &[u8]) -> String {
    if bytes.is_empty() {
        return "[]".to_string();
    }
    let mut text = String::from("bytes \"");
    for &byte in bytes {
        match byte {
            b'\n' => text.push_str("\\n"),
            b'"' => text.push_str("\\\""),
            b'\\' => text.push_str("\\\\"),
            32..=126 => text.push(byte as char),
            other => text.push_str(&format!("\\u{{{other:x}}}")),
        }
    }
    text.push('"');
    text
}

fn closing(ending: Ending) -> Option<String> {
    match ending {
        Ending::Done => Some("done".to_string()),
        Ending::Refused { number, line } => Some(format!("(refused {number} {line})")),
        Ending::NeedsInput | Ending::NeedsRoom => None,
    }
}

fn reply(ending: Ending) -> String {
    match ending {
        Ending::NeedsInput => "needs_input".to_string(),
        Ending::NeedsRoom => "needs_room".to_string(),
        other => format!("(closes {})", closing(other).expect("closed")),
    }
}

/// The statement of a vector, without its name. Nothing where it asks for what the rules do not say (refusal 1).
fn statement(vector: &Vector) -> Option<String> {
    if vector.question.store != STORE_LENGTH {
        return None;
    }
    let document = quoted(&vector.question.document);
    match (&vector.expected, &vector.question.calls) {
        (Outcome::Whole { out, end }, _) => Some(format!("Gives ({document}) ({}) {}", quoted(out), closing(*end)?)),
        (Outcome::Called { out, answers }, Some(calls)) => {
            let lent = calls.iter().map(|call| format!("lent {} {} {} ∷ ", call.block, call.last, call.room));
            let mut at: usize = 0;
            let told = answers.iter().map(|&Answer { taken, written, ending }| {
                let end = at.saturating_add(written).min(out.len());
                let bytes = &out[at..end];
                at = end;
                format!("told {taken} ({}) {} ∷ ", quoted(bytes), reply(ending))
            });
            let (lent, told): (String, String) = (lent.collect(), told.collect());
            Some(format!("answers [] (start ten_to_the_inch) ({document}) ({lent}[]) ≡ ({told}[])"))
        }
        (Outcome::Called { .. }, None) => None,
    }
}

fn lines(file: &str) -> io::Result<Vec<String>> {
    let opened: Box<dyn Read> = if file == "-" { Box::new(io::stdin()) } else { Box::new(File::open(file)?) };
    BufReader::new(opened).lines().collect()
}

/// Statements in one module.
const MODULE: usize = 200;

fn write(directory: &Path, count: usize, longest: usize, files: &[String]) -> Result<(), String> {
    let mut list = BufWriter::new(io::stdout().lock());
    let failed = |error: io::Error| error.to_string();
    let (mut modules, mut number) = (Vec::new(), 0);
    for file in files {
        let read = lines(file).map_err(|error| format!("{file}: {error}"))?;
        for (index, line) in read.iter().enumerate().filter(|(_, line)| !line.trim().is_empty()) {
            let place = format!("{file}:{}", index + 1);
            let vector = Vector::parse(line).map_err(|error| format!("{place}: {error}"))?;
            let long = vector.question.document.len().max(vector.expected.out().len());
            if number == count || long > longest {
                continue;
            }
            let Some(statement) = statement(&vector) else { continue };
            if number % MODULE == 0 {
                modules.push(HEAD.to_string());
            }
            number += 1;
            let (name, module) = (modules.len(), modules.last_mut().expect("a module"));
            writeln!(list, "E{name} {} {place} {}", module.lines().count() + 2, vector.name).map_err(failed)?;
            module.push_str(&format!("\nv{number} : {statement}\nunfolding pages_here answers\nv{number} = refl\n"));
        }
    }
    let mut names = String::from("-- Vectors as statements.\n");
    for (index, module) in modules.iter().enumerate() {
        let name = format!("E{}", index + 1);
        names.push_str(&format!("pub mod {name}\n"));
        fs::write(directory.join(format!("{name}.antt")), module).map_err(failed)?;
    }
    fs::write(directory.join("Lib.antt"), names).map_err(failed)?;
    list.flush().map_err(failed)
}

fn main() -> ExitCode {
    let words: Vec<String> = std::env::args_os().skip(1).map(|word| word.to_string_lossy().into_owned()).collect();
    let result = match words.as_slice() {
        [directory, count, longest, files @ ..] if !files.is_empty() => match (count.parse(), longest.parse()) {
            (Ok(count), Ok(longest)) => write(Path::new(directory), count, longest, files),
            _ => Err("COUNT and LONGEST are whole numbers".to_string()),
        },
        _ => Err("usage: statements DIRECTORY COUNT LONGEST FILE..".to_string()),
    };
    if let Err(message) = result {
        let _ = writeln!(io::stderr(), "statements: {message}");
        return ExitCode::from(2);
    }
    ExitCode::SUCCESS
}
