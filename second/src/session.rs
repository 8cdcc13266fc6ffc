//! Document 01, 'A session': calls with a block, a last mark and output room.

use crate::refusal::{
    Stop, Work, BAD_BYTE, BAD_STORE, LINE_LIMIT, LONG_LINE, SOURCE_LINE_LIMIT, STORE_LENGTH, TOO_LONG,
};
use crate::state::{Item, Source, State};

/// How a call ends.
#[derive(Clone, Copy, Debug, PartialEq, Eq)]
pub enum Ending {
    NeedsInput,
    NeedsRoom,
    Done,
    Refused { number: u8, line: u32 },
}

/// "It answers bytes taken, bytes written, and needs input, needs room, done, or refused".
#[derive(Clone, Copy, Debug, PartialEq, Eq)]
pub struct Answer {
    pub taken: usize,
    pub written: usize,
    pub ending: Ending,
}

impl State {
    /// "A call lends a block, a last mark, the store (8,192 bytes for macro and string text), output room, and the
    /// record of the last call". Of the store only its length matters here: texts are kept in the state. The written
    /// bytes are added to `out`.
    pub fn call(&mut self, store_length: usize, block: &[u8], last: bool, room: usize, out: &mut Vec<u8>) -> Answer {
        // "1 comes first, gives line 0, takes and writes nothing and changes nothing."
        if store_length != STORE_LENGTH {
            return Answer { taken: 0, written: 0, ending: ending(BAD_STORE, 0) };
        }
        let (mut taken, mut written) = (0, 0);
        loop {
            // "if output waits, write a byte, or stop with "needs room" if no room is left"
            if self.delivered < self.waiting.len() {
                let count = (self.waiting.len() - self.delivered).min(room - written);
                if count == 0 {
                    return Answer { taken, written, ending: Ending::NeedsRoom };
                }
                out.extend_from_slice(&self.waiting[self.delivered..self.delivered + count]);
                self.delivered += count;
                written += count;
                continue;
            }
            self.waiting.clear();
            self.delivered = 0;
            // "Waiting output is delivered before done or a refusal." "After done or refused (repeated) [..] no byte is
            // taken."
            if let Some(stop) = self.closed {
                return Answer { taken, written, ending: ending(stop, self.line_number) };
            }
            let work = if let Some(work) = self.work() {
                // "else deal with the top of the input stack"
                work
            } else if taken < block.len() {
                // "else take one byte"
                taken += 1;
                self.take(block[taken - 1])
            } else if last {
                // "else, if marked last, read the end"
                self.read_end()
            } else {
                // "else stop with "needs input""
                return Answer { taken, written, ending: Ending::NeedsInput };
            };
            if let Err(stop) = work {
                self.close(stop);
            }
        }
    }

    /// "A refusal drops the collected line", and done comes "whatever is unread or collected".
    fn close(&mut self, stop: Stop) {
        self.collected = None;
        self.stack.clear();
        self.closed = Some(stop);
    }

    /// One piece of work that needs no byte: on the top of the stack, or the end's own. Nothing if there is none.
    fn work(&mut self) -> Option<Work<()>> {
        if let Some(Item::Reading { .. }) = self.stack.last() {
            return Some(self.read_text());
        }
        match self.stack.pop() {
            Some(Item::Line(line)) => Some(self.held_line(line)),
            Some(Item::Words { line, at }) => Some(self.fill_words(line, at, false)),
            Some(Item::Request { request, arguments }) => Some(self.act(request, &arguments)),
            Some(Item::Eject { page }) => Some(self.eject(page)),
            Some(Item::End) => Some(self.eject_to_the_end()),
            Some(Item::Reading { .. }) => unreachable!("read above"),
            // "Bytes after the last newline are a line, dealt with in full before the end is."
            None if self.source == Source::EndRead => Some(self.begin_end()),
            None => None,
        }
    }

    /// Takes a source byte. "12 falls at the first byte, good or bad, of the line past the limit"; "Byte 513 of a line
    /// earns 3, good or bad."
    fn take(&mut self, byte: u8) -> Work<()> {
        if !self.line_begun {
            self.line_begun = true;
            self.line_number += 1;
            // The stored lines are counted "for one source line".
            self.stored_lines = 0;
            if self.line_number > SOURCE_LINE_LIMIT {
                return Err(TOO_LONG);
            }
        }
        if byte == b'\n' {
            return self.end_line();
        }
        if self.gathered.len() == LINE_LIMIT {
            return Err(LONG_LINE);
        }
        // "a source byte other than 10 and 32 to 126 (H)"
        if !(32..=126).contains(&byte) {
            return Err(BAD_BYTE);
        }
        self.gathered.push(byte);
        Ok(())
    }

    fn end_line(&mut self) -> Work<()> {
        self.line_begun = false;
        let line = std::mem::take(&mut self.gathered);
        let work = self.raw_line(&line, &Vec::new());
        self.gathered = line;
        self.gathered.clear();
        work
    }

    /// "The end is read once, with the line it closes, and its work goes on to done or a refusal without a further
    /// mark."
    fn read_end(&mut self) -> Work<()> {
        self.source = Source::EndRead;
        if self.line_begun {
            return self.end_line();
        }
        Ok(())
    }
}

/// "done, or refused (number, source line from 1, for the end the last)"
fn ending(stop: Stop, line: u32) -> Ending {
    match stop {
        Stop::Done => Ending::Done,
        Stop::Refused(number) => Ending::Refused { number, line },
    }
}

/// The pages and the closing answer of a whole document.
pub fn pages(document: &[u8]) -> (Vec<u8>, Ending) {
    let mut out = Vec::new();
    let answer = State::new().call(STORE_LENGTH, document, true, usize::MAX, &mut out);
    (out, answer.ending)
}
