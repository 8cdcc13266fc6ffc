//! Document 01, 'Lines and escapes': expanding a line, in plain and in copy mode.

use std::rc::Rc;

use crate::number::{within_limit, CELL, ROW};
use crate::refusal::{
    Work, BAD_ESCAPE, BAD_VALUE, DEEP_STRINGS, LINE_LIMIT, LONG_LINE, NESTING_LIMIT, SCAN_LIMIT, TEXT_IN_USE,
};
use crate::state::{Arguments, Name, State, FIXED_BLANK, MARK};
use crate::text::Kind;

#[derive(Clone, Copy, Debug, PartialEq, Eq)]
pub enum Mode {
    Plain,
    /// "Body lines of de, and ds lines, are in copy mode (002, 7.2)"
    Copy,
}

/// Writes an expanded text back, so that it prints the same when read again:
/// "write backslash, mark and fixed blank as \e, \& and backslash-space".
pub fn written_back(text: &[u8]) -> Vec<u8> {
    let mut written = Vec::with_capacity(text.len());
    for &byte in text {
        match byte {
            b'\\' => written.extend_from_slice(b"\\e"),
            MARK => written.extend_from_slice(b"\\&"),
            FIXED_BLANK => written.extend_from_slice(b"\\ "),
            _ => written.push(byte),
        }
    }
    written
}

/// A string being scanned in place.
struct Nested {
    bytes: Rc<Vec<u8>>,
    at: usize,
}

/// The scanner: the line, the strings nested in it, and what has been made of them.
struct Scanner<'a> {
    state: &'a mut State,
    arguments: &'a Arguments,
    mode: Mode,
    line: &'a [u8],
    at: usize,
    nested: Vec<Nested>,
    scanned: usize,
    expanded: Vec<u8>,
}

impl State {
    /// The line as expanded from the place `at` on; the first byte that earns a refusal decides. The bytes before it, a
    /// control byte and a name, stand as they are, and count as scanned and expanded.
    pub fn expand(&mut self, line: &[u8], at: usize, arguments: &Arguments, mode: Mode) -> Work<Vec<u8>> {
        let mut expanded = Vec::with_capacity(line.len());
        expanded.extend_from_slice(&line[..at]);
        let mut scanner = Scanner { state: self, arguments, mode, line, at, nested: Vec::new(), scanned: at, expanded };
        scanner.run()?;
        Ok(scanner.expanded)
    }

    /// The value of a register: "Read-only (H): % page (0 before the first), nl rows used, .l .i .p, all but % in units."
    fn predefined(&self, name: &[u8]) -> Option<i64> {
        match name {
            b"%" => Some(i64::from(self.page)),
            b"nl" => Some(self.row * ROW),
            b".l" => Some(self.line_length.value * CELL),
            b".i" => Some(self.indent.value * CELL),
            b".p" => Some(self.page_length * ROW),
            _ => None,
        }
    }

    pub fn is_predefined(&self, name: &[u8]) -> bool {
        self.predefined(name).is_some()
    }

    /// "\nx \n(xx, with + or - before the name to step first, give a register in decimal". "Undefined ones give 0
    /// or nothing, and a step does not make one."
    fn register_value(&mut self, name: &[u8], direction: i64) -> Work<i64> {
        if let Some(value) = self.predefined(name) {
            // "a predefined register written or stepped"
            return if direction == 0 { Ok(value) } else { Err(BAD_VALUE) };
        }
        let Some(name) = Name::new(name) else { return Ok(0) };
        let Some(register) = self.registers.iter_mut().find(|register| register.name == name) else { return Ok(0) };
        register.value = within_limit(register.value + direction * register.step)?;
        Ok(register.value)
    }
}

impl Scanner<'_> {
    fn run(&mut self) -> Work<()> {
        loop {
            match self.next_here()? {
                Some(b'\\') => {
                    if !self.escape()? {
                        return Ok(());
                    }
                }
                Some(byte) => self.put(byte)?,
                // A string is left only when a byte behind it is wanted.
                None => {
                    if self.nested.pop().is_none() {
                        return Ok(());
                    }
                }
            }
        }
    }

    /// The next byte of the innermost string, or of the line; counted as scanned.
    fn next_here(&mut self) -> Work<Option<u8>> {
        let Some(byte) = self.peek_here() else { return Ok(None) };
        // "past 8,192 bytes scanned for one line"
        if self.scanned == SCAN_LIMIT {
            return Err(DEEP_STRINGS);
        }
        self.scanned += 1;
        match self.nested.last_mut() {
            Some(string) => string.at += 1,
            None => self.at += 1,
        }
        Ok(Some(byte))
    }

    fn peek_here(&self) -> Option<u8> {
        match self.nested.last() {
            Some(string) => string.bytes.get(string.at).copied(),
            None => self.line.get(self.at).copied(),
        }
    }

    /// A byte that an escape needs: "cut short in its line or string" earns 5.
    fn needed(&mut self) -> Work<u8> {
        self.next_here()?.ok_or(BAD_ESCAPE)
    }

    /// "a source line or expanded line passes 512 bytes"
    fn put(&mut self, byte: u8) -> Work<()> {
        if self.expanded.len() == LINE_LIMIT {
            return Err(LONG_LINE);
        }
        self.expanded.push(byte);
        Ok(())
    }

    fn put_all(&mut self, bytes: &[u8]) -> Work<()> {
        bytes.iter().try_for_each(|&byte| self.put(byte))
    }

    /// The escape behind a backslash; false if it ends the line.
    fn escape(&mut self) -> Work<bool> {
        match (self.mode, self.peek_here()) {
            (_, Some(b'n')) => self.register()?,
            (_, Some(b'*')) => self.string()?,
            (_, Some(b'$')) => self.argument()?,
            // "\" ends the line"
            (_, Some(b'"')) => {
                self.next_here()?;
                return Ok(false);
            }
            // "\\ becomes \, \. becomes a period, \n \* \$ \" act, the rest, a lone backslash at the end too, stays."
            (Mode::Copy, Some(byte @ (b'\\' | b'.'))) => {
                self.next_here()?;
                self.put(byte)?;
            }
            (Mode::Copy, Some(byte)) => {
                self.next_here()?;
                self.put(b'\\')?;
                self.put(byte)?;
            }
            (Mode::Copy, None) => self.put(b'\\')?,
            // "\\ and \e print a backslash, \- a minus, \& a mark of no width [..], backslash-space a fixed blank"
            (Mode::Plain, _) => {
                let printed = match self.needed()? {
                    b'\\' | b'e' => b'\\',
                    b'-' => b'-',
                    b'&' => MARK,
                    b' ' => FIXED_BLANK,
                    _ => return Err(BAD_ESCAPE),
                };
                self.put(printed)?;
            }
        }
        Ok(true)
    }

    /// A name of one byte, or of two behind a parenthesis.
    fn name(&mut self) -> Work<([u8; 2], usize)> {
        let first = self.needed()?;
        if first != b'(' {
            return Ok(([first, 0], 1));
        }
        Ok(([self.needed()?, self.needed()?], 2))
    }

    fn register(&mut self) -> Work<()> {
        self.next_here()?;
        let direction = match self.peek_here() {
            Some(b'+') => 1,
            Some(b'-') => -1,
            _ => 0,
        };
        if direction != 0 {
            self.next_here()?;
        }
        let (name, length) = self.name()?;
        let value = self.state.register_value(&name[..length], direction)?;
        self.put_all(value.to_string().as_bytes())
    }

    /// "\*x \*(xx a string, scanned in place"
    fn string(&mut self) -> Work<()> {
        self.next_here()?;
        let (name, length) = self.name()?;
        let Some(text) = Name::new(&name[..length]).and_then(|name| self.state.text(name)) else { return Ok(()) };
        // "or a macro named as a string"
        if text.kind == Kind::Macro {
            return Err(TEXT_IN_USE);
        }
        // "strings nested past 8"
        if self.nested.len() == NESTING_LIMIT {
            return Err(DEEP_STRINGS);
        }
        let bytes = Rc::clone(&text.bytes);
        self.nested.push(Nested { bytes, at: 0 });
        Ok(())
    }

    /// "\$1 to \$9 an argument, not scanned again". An interpolated string has none of its own.
    fn argument(&mut self) -> Work<()> {
        self.next_here()?;
        let digit = self.needed()?;
        if !(b'1'..=b'9').contains(&digit) {
            return Err(BAD_ESCAPE);
        }
        if !self.nested.is_empty() {
            return Ok(());
        }
        let Some(argument) = self.arguments.get(usize::from(digit - b'1')) else { return Ok(()) };
        match self.mode {
            Mode::Plain => self.put_all(argument),
            // "There \$ [..] write[s] backslash, mark and fixed blank as \e, \& and backslash-space."
            Mode::Copy => self.put_all(&written_back(argument)),
        }
    }
}
