//! Documents written on one line each, and runs of them: whole, and in small blocks and rooms. `crates/bounds_main` reads
//! the same lines and writes the same answers.
//!
//! In such a line `|` is a newline, `{512 x}` stands for 512 times `x`, and `{9}` for the byte with the number 9.

use std::fmt::Write;

use crate::refusal::STORE_LENGTH;
use crate::session::{Answer, Ending};
use crate::state::State;

/// The most bytes of a document less one, and the room of a whole run.
const DOCUMENT: usize = 2_097_152;
const ROOM: usize = 65_536;
/// Documents longer than this, or with more bytes of pages than are shown, are cut into longer blocks and rooms.
const SMALL: usize = 10_000;
/// The most bytes of pages that are shown; of longer ones only a sum is.
const SHOWN: usize = 2_000;
/// Sums are taken modulo this prime.
const PRIME: u64 = 1_000_000_007;

/// The lengths of the blocks, and those of the rooms by turns.
struct Cut {
    block: usize,
    rooms: [usize; 2],
}

const WHOLE: Cut = Cut { block: DOCUMENT, rooms: [ROOM, ROOM] };
/// A room of 0 alone never leads on.
const PIECES: [Cut; 3] =
    [Cut { block: 1, rooms: [0, 1] }, Cut { block: 3, rooms: [1, 1] }, Cut { block: 7, rooms: [5, 5] }];
const LONGER_PIECES: [Cut; 1] = [Cut { block: 509, rooms: [0, 4093] }];

fn mixed(sum: u64, value: u64) -> u64 {
    (sum * 257 + value % PRIME + 1) % PRIME
}

/// A document in pieces, and what its calls answered.
struct Run {
    pages: Vec<u8>,
    answers: Vec<Answer>,
}

impl Run {
    fn new(document: &[u8], cut: &Cut) -> Run {
        let (mut state, mut at) = (State::new(), 0);
        let mut run = Run { pages: Vec::new(), answers: Vec::new() };
        loop {
            let end = document.len().min(at + cut.block);
            let room = cut.rooms[run.answers.len() % 2];
            let answer = state.call(STORE_LENGTH, &document[at..end], end == document.len(), room, &mut run.pages);
            at += answer.taken;
            run.answers.push(answer);
            if matches!(answer.ending, Ending::Done | Ending::Refused { .. }) {
                return run;
            }
        }
    }

    fn count(&self, ending: Ending) -> usize {
        self.answers.iter().filter(|answer| answer.ending == ending).count()
    }

    /// The closing answer, the counts, a sum over the answers to all calls, and the pages.
    fn write(&self, text: &mut String) {
        let taken: usize = self.answers.iter().map(|answer| answer.taken).sum();
        let (input, room) = (self.count(Ending::NeedsInput), self.count(Ending::NeedsRoom));
        let sum = self.answers.iter().fold(0, |sum, answer| {
            let code = match answer.ending {
                Ending::NeedsInput => 0,
                Ending::NeedsRoom => 1,
                Ending::Done => 2,
                Ending::Refused { .. } => 3,
            };
            mixed(mixed(mixed(sum, code), answer.taken as u64), answer.written as u64)
        });
        let closing = match self.answers.last().map(|answer| answer.ending) {
            Some(Ending::Refused { number, line }) => format!("refused {number} at line {line}"),
            _ => "done".to_string(),
        };
        let _ = writeln!(
            text,
            "{closing}; taken {taken}, written {}; calls {}, for input {input}, for room {room}, sum {sum}",
            self.pages.len(),
            self.answers.len()
        );
        self.write_pages(text);
    }

    fn write_pages(&self, text: &mut String) {
        if self.pages.len() > SHOWN {
            let sum = self.pages.iter().fold(0, |sum, &byte| mixed(sum, u64::from(byte)));
            let _ = writeln!(text, "  pages with sum {sum}");
        } else if !self.pages.is_empty() {
            let pages: String = self.pages.iter().map(|&byte| if byte == b'\n' { '|' } else { byte as char }).collect();
            let _ = writeln!(text, "  {pages}");
        }
    }
}

/// What `second runs` writes for one line: a title as it is, or the runs of a document.
pub fn answered(line: &str) -> Result<String, String> {
    if line.starts_with('#') {
        return Ok(format!("{line}\n"));
    }
    let document = read(line)?;
    if document.len() >= DOCUMENT {
        return Ok("too long\n".to_string());
    }
    let mut text = "whole: ".to_string();
    let whole = Run::new(&document, &WHOLE);
    whole.write(&mut text);
    let long = document.len() > SMALL || whole.pages.len() > SHOWN;
    let cuts: &[Cut] = if long { &LONGER_PIECES } else { &PIECES };
    for cut in cuts {
        let _ = write!(text, "blocks {}, rooms {} {}: ", cut.block, cut.rooms[0], cut.rooms[1]);
        Run::new(&document, cut).write(&mut text);
    }
    Ok(text)
}

/// The document of a line.
fn read(line: &str) -> Result<Vec<u8>, String> {
    let newlines = |text: &str| text.replace('|', "\n").into_bytes();
    let (mut document, mut rest) = (Vec::new(), line);
    while let Some((before, braced)) = rest.split_once('{') {
        document.extend(newlines(before));
        let (inside, behind) = braced.split_once('}').ok_or("a brace is not closed")?;
        match inside.split_once(' ') {
            Some((count, text)) => {
                let count: usize = count.parse().map_err(|_| format!("{count}: not a count"))?;
                document.extend(newlines(text).repeat(count));
            }
            None => document.push(inside.parse().map_err(|_| format!("{inside}: not a byte"))?),
        }
        rest = behind;
    }
    document.extend(newlines(rest));
    Ok(document)
}

/// The line of a document.
pub fn written(document: &[u8]) -> String {
    let (mut line, mut at) = (String::new(), 0);
    while at < document.len() {
        let (period, count) = repeated(&document[at..]);
        let shown: String = document[at..at + period].iter().map(|&byte| shown(byte)).collect();
        if count > 1 {
            let _ = write!(line, "{{{count} {shown}}}");
        } else {
            line.push_str(&shown);
        }
        at += period * count;
    }
    line
}

fn is_plain(byte: u8) -> bool {
    matches!(byte, b'\n' | b' '..=b'~') && !matches!(byte, b'|' | b'{' | b'}' | b'#')
}

fn shown(byte: u8) -> String {
    match byte {
        b'\n' => "|".to_string(),
        _ if is_plain(byte) => (byte as char).to_string(),
        _ => format!("{{{byte}}}"),
    }
}

/// How many bytes at the start are repeated, and how often: one byte, once, where nothing is worth the braces. Lines are
/// repeated from their first byte on, not from the newline before it.
fn repeated(document: &[u8]) -> (usize, usize) {
    const PERIODS: usize = 8;
    const WORTH: usize = 12;
    let mut best = (1, 1);
    for period in 1..=PERIODS.min(document.len()) {
        let first = &document[..period];
        let count = document.chunks(period).take_while(|&chunk| chunk == first).count();
        let saves = count > 1 && period * count >= WORTH && period * count > best.0 * best.1;
        let apart = period > 1 && first[0] == b'\n';
        if saves && !apart && first.iter().all(|&byte| is_plain(byte)) {
            best = (period, count);
        }
    }
    best
}

#[cfg(test)]
mod tests {
    use super::*;

    #[test]
    fn documents_are_written_on_a_line() {
        for (document, line) in [
            (&b""[..], ""),
            (b"a b\n\n", "a b||"),
            (b"#{\t|}\x7f\xff", "{35}{123}{9}{124}{125}{127}{255}"),
            (b"xxxxxxxxxxx", "xxxxxxxxxxx"),
            (b"xxxxxxxxxxxx", "{12 x}"),
            (b"a\n.z\n.z\n.z\n.z\n", "a|{4 .z|}"),
            (b"|||||||||||||", &"{124}".repeat(13)),
        ] {
            assert_eq!(written(document), line);
            assert_eq!(read(line).as_deref(), Ok(document));
        }
        for line in ["{", "{3 x", "{}", "{256}", "{x y}", "{-1 y}"] {
            assert!(read(line).is_err(), "{line}");
        }
    }

    #[test]
    fn every_document_is_read_back() {
        for index in 0..2_000 {
            let document = crate::generate::document(2026, index);
            assert_eq!(read(&written(&document)), Ok(document));
        }
    }
}
