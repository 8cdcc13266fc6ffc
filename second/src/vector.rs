//! Vectors: documents with their pages and closing answer, or with a list of calls and their answers.

use std::fmt::Write;

use crate::json::{from_hex, to_hex, Json};
use crate::refusal::STORE_LENGTH;
use crate::session::{Answer, Ending};
use crate::state::State;

/// One call: the block's length, the last mark, the room.
#[derive(Clone, Copy, Debug)]
pub struct Call {
    pub block: usize,
    pub last: bool,
    pub room: usize,
}

/// What a vector asks for.
#[derive(Clone, Debug)]
pub struct Question {
    pub document: Vec<u8>,
    pub calls: Option<Vec<Call>>,
    /// The length of the store lent to each call; "store" in the object, 8,192 without it.
    pub store: usize,
}

/// What the formatter gives: for a whole document one closing answer, else an answer for each call.
#[derive(Clone, Debug, PartialEq, Eq)]
pub enum Outcome {
    Whole { out: Vec<u8>, end: Ending },
    Called { out: Vec<u8>, answers: Vec<Answer> },
}

fn bytes_field(object: &Json, key: &str) -> Result<Vec<u8>, String> {
    match object.get(key) {
        Some(Json::Text(text)) => from_hex(text).map_err(|error| format!("\"{key}\": {error}")),
        _ => Err(format!("\"{key}\" must be a string of hexadecimal digits")),
    }
}

fn count(value: &Json) -> Option<usize> {
    match value {
        Json::Number(number) => usize::try_from(*number).ok(),
        _ => None,
    }
}

fn call(value: &Json) -> Result<Call, String> {
    if let Json::List(items) = value {
        if let [block, last, room] = items.as_slice() {
            if let (Some(block), Some(last @ 0..=1), Some(room)) = (count(block), count(last), count(room)) {
                return Ok(Call { block, last: last == 1, room });
            }
        }
    }
    Err("a call must be [block length, last 0 or 1, room]".to_string())
}

fn ending(value: &Json) -> Result<Ending, String> {
    match value {
        Json::Text(text) if text == "input" => return Ok(Ending::NeedsInput),
        Json::Text(text) if text == "room" => return Ok(Ending::NeedsRoom),
        Json::Text(text) if text == "done" => return Ok(Ending::Done),
        Json::List(items) => {
            if let [Json::Number(number), Json::Number(line)] = items.as_slice() {
                if let (Ok(number), Ok(line)) = (u8::try_from(*number), u32::try_from(*line)) {
                    return Ok(Ending::Refused { number, line });
                }
            }
        }
        _ => {}
    }
    Err("an answer must be \"input\", \"room\", \"done\" or [number, line]".to_string())
}

fn answer(value: &Json) -> Result<Answer, String> {
    if let Json::List(items) = value {
        if let [taken, written, last] = items.as_slice() {
            if let (Some(taken), Some(written)) = (count(taken), count(written)) {
                return Ok(Answer { taken, written, ending: ending(last)? });
            }
        }
    }
    Err("an answer must be [taken, written, ending]".to_string())
}

fn list<T>(object: &Json, key: &str, item: impl Fn(&Json) -> Result<T, String>) -> Result<Vec<T>, String> {
    match object.get(key) {
        Some(Json::List(items)) => items.iter().map(item).collect(),
        _ => Err(format!("\"{key}\" must be a list")),
    }
}

impl Question {
    pub fn from_json(object: &Json) -> Result<Question, String> {
        let document = bytes_field(object, "doc")?;
        let calls = object.get("calls").map(|_| list(object, "calls", call)).transpose()?;
        let store = match object.get("store") {
            None => STORE_LENGTH,
            Some(value) => count(value).ok_or("\"store\" must be a length")?,
        };
        Ok(Question { document, calls, store })
    }

    pub fn answer(&self) -> Outcome {
        let Some(calls) = &self.calls else {
            let mut out = Vec::new();
            let answer = State::new().call(self.store, &self.document, true, usize::MAX, &mut out);
            return Outcome::Whole { out, end: answer.ending };
        };
        let (mut state, mut out, mut at) = (State::new(), Vec::new(), 0);
        let answer = |call: &Call| {
            // Each block is that many bytes, clipped, from the first untaken byte on.
            let end = self.document.len().min(at + call.block.min(self.document.len()));
            let answer = state.call(self.store, &self.document[at..end], call.last, call.room, &mut out);
            at += answer.taken;
            answer
        };
        let answers = calls.iter().map(answer).collect();
        Outcome::Called { out, answers }
    }
}

fn write_ending(ending: Ending, text: &mut String) {
    let _ = match ending {
        Ending::NeedsInput => write!(text, "\"input\""),
        Ending::NeedsRoom => write!(text, "\"room\""),
        Ending::Done => write!(text, "\"done\""),
        Ending::Refused { number, line } => write!(text, "[{number}, {line}]"),
    };
}

impl Outcome {
    /// The outcome that a vector expects.
    pub fn from_json(object: &Json, called: bool) -> Result<Outcome, String> {
        let out = bytes_field(object, "out")?;
        if called {
            return Ok(Outcome::Called { out, answers: list(object, "answers", answer)? });
        }
        let end = ending(object.get("end").ok_or("\"end\" is missing")?)?;
        Ok(Outcome::Whole { out, end })
    }

    pub fn to_json(&self) -> String {
        let mut text = String::from("{");
        let out = match self {
            Outcome::Whole { out, .. } => out,
            Outcome::Called { out, answers } => {
                text.push_str("\"answers\": [");
                for (index, answer) in answers.iter().enumerate() {
                    let comma = if index == 0 { "" } else { ", " };
                    let _ = write!(text, "{comma}[{}, {}, ", answer.taken, answer.written);
                    write_ending(answer.ending, &mut text);
                    text.push(']');
                }
                text.push_str("], ");
                out
            }
        };
        text.push_str("\"out\": \"");
        to_hex(out, &mut text);
        text.push('"');
        if let Outcome::Whole { end, .. } = self {
            text.push_str(", \"end\": ");
            write_ending(*end, &mut text);
        }
        text.push('}');
        text
    }

    pub fn out(&self) -> &[u8] {
        match self {
            Outcome::Whole { out, .. } | Outcome::Called { out, .. } => out,
        }
    }
}

/// A vector of a file: its name, what it asks, what it expects.
pub struct Vector {
    pub name: String,
    pub question: Question,
    pub expected: Outcome,
}

impl Vector {
    pub fn parse(line: &str) -> Result<Vector, String> {
        let object = Json::parse(line)?;
        let name = match object.get("name") {
            Some(Json::Text(name)) => name.clone(),
            _ => String::new(),
        };
        let question = Question::from_json(&object)?;
        let expected = Outcome::from_json(&object, question.calls.is_some())?;
        Ok(Vector { name, question, expected })
    }

    /// Nothing if the formatter gives what is expected, else the difference in words.
    pub fn difference(&self) -> Option<String> {
        let got = self.question.answer();
        if got == self.expected {
            return None;
        }
        let mut text = String::new();
        text.push_str(&rows("source", &self.question.document));
        text.push_str(&endings(&self.expected, &got));
        if got.out() != self.expected.out() {
            text.push_str(&rows("expected", self.expected.out()));
            text.push_str(&rows("got", got.out()));
            text.push_str(&first_difference(self.expected.out(), got.out()));
        }
        Some(text)
    }

    /// The vector as a person reads it.
    pub fn shown(&self) -> String {
        let mut text = rows("source", &self.question.document);
        text.push_str(&rows("pages", self.expected.out()));
        match &self.expected {
            Outcome::Whole { end, .. } => {
                let _ = writeln!(text, "  {end:?}");
            }
            Outcome::Called { answers, .. } => {
                for (call, answer) in self.question.calls.iter().flatten().zip(answers) {
                    let _ = writeln!(text, "  {call:?} -> {answer:?}");
                }
            }
        }
        text
    }
}

/// Lines with their numbers, each ended by | so that blanks at its end are seen.
fn rows(title: &str, bytes: &[u8]) -> String {
    const SHOWN: usize = 60;
    let mut text = format!("  {title} ({} bytes)\n", bytes.len());
    let lines: Vec<&[u8]> = bytes.split_inclusive(|&byte| byte == b'\n').collect();
    for (index, line) in lines.iter().take(SHOWN).enumerate() {
        let (body, end) = match line.strip_suffix(b"\n") {
            Some(body) => (body, "|"),
            None => (*line, "| (no newline)"),
        };
        let body: String = body.iter().take(200).map(|byte| byte.escape_ascii().to_string()).collect();
        let _ = writeln!(
            text,
            "    {:>3} {}{}",
            index + 1,
            body.replace("\\\\", "\\").replace("\\'", "'").replace("\\\"", "\""),
            end
        );
    }
    if lines.len() > SHOWN {
        let _ = writeln!(text, "    .. and {} more", lines.len() - SHOWN);
    }
    text
}

fn endings(expected: &Outcome, got: &Outcome) -> String {
    match (expected, got) {
        (Outcome::Whole { end: expected, .. }, Outcome::Whole { end: got, .. }) if expected != got => {
            format!("  expected {expected:?}, got {got:?}\n")
        }
        (Outcome::Called { answers: expected, .. }, Outcome::Called { answers: got, .. }) => {
            let differ = expected.iter().zip(got).enumerate().find(|(_, (expected, got))| expected != got);
            match differ {
                Some((index, (expected, got))) => format!("  call {}: expected {expected:?}, got {got:?}\n", index + 1),
                None if expected.len() != got.len() => {
                    format!("  {} answers expected, {} given\n", expected.len(), got.len())
                }
                None => String::new(),
            }
        }
        _ => String::new(),
    }
}

fn first_difference(expected: &[u8], got: &[u8]) -> String {
    let at = expected.iter().zip(got).take_while(|(expected, got)| expected == got).count();
    let row = expected[..at].iter().filter(|&&byte| byte == b'\n').count() + 1;
    format!("  the pages differ first at byte {}, in row {row}\n", at + 1)
}
