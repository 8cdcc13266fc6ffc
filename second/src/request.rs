//! Document 01, 'What is built' and 'Lines and escapes': the requests, each with its arguments.

use crate::argument::{argument, next_space, skip_spaces};
use crate::escape::written_back;
use crate::number::{evaluate, is_change, round, within_limit, DefaultScale, CELL, ROW};
use crate::refusal::{Work, BAD_VALUE, REGISTER_LIMIT, TABLE_FULL, TRAP_LIMIT};
use crate::state::{Arguments, Name, Register, State, Trap};

/// "Requests: br sp bp pl po ll in ti fi nf ad na ce nr ds de rm wh if."
#[derive(Clone, Copy, Debug, PartialEq, Eq)]
pub enum Request {
    Break,
    Space,
    BeginPage,
    PageLength,
    PageOffset,
    LineLength,
    Indent,
    TemporaryIndent,
    Fill,
    NoFill,
    Adjust,
    NoAdjust,
    Centre,
    NumberRegister,
    DefineString,
    Define,
    Remove,
    When,
    If,
}

impl Request {
    pub fn named(name: &[u8]) -> Option<Request> {
        Some(match name {
            b"br" => Request::Break,
            b"sp" => Request::Space,
            b"bp" => Request::BeginPage,
            b"pl" => Request::PageLength,
            b"po" => Request::PageOffset,
            b"ll" => Request::LineLength,
            b"in" => Request::Indent,
            b"ti" => Request::TemporaryIndent,
            b"fi" => Request::Fill,
            b"nf" => Request::NoFill,
            b"ad" => Request::Adjust,
            b"na" => Request::NoAdjust,
            b"ce" => Request::Centre,
            b"nr" => Request::NumberRegister,
            b"ds" => Request::DefineString,
            b"de" => Request::Define,
            b"rm" => Request::Remove,
            b"wh" => Request::When,
            b"if" => Request::If,
            _ => return None,
        })
    }

    /// "br sp bp fi nf ce in ti break"
    pub fn breaks(self) -> bool {
        use Request::*;
        matches!(self, Break | Space | BeginPage | Fill | NoFill | Centre | Indent | TemporaryIndent)
    }
}

/// "to a request an empty one is missing"
fn present(arguments: &Arguments, index: usize) -> Option<&[u8]> {
    arguments.get(index).map(Vec::as_slice).filter(|bytes| !bytes.is_empty())
}

/// "a name argument longer than two bytes"
fn name_argument(bytes: &[u8]) -> Work<Name> {
    Name::new(bytes).ok_or(BAD_VALUE)
}

/// "value out of range"
fn in_range(value: i64, least: i64, most: i64) -> Work<i64> {
    if (least..=most).contains(&value) {
        Ok(value)
    } else {
        Err(BAD_VALUE)
    }
}

fn cells(argument: &[u8]) -> Work<i64> {
    Ok(round(evaluate(argument, DefaultScale::Across)?, CELL))
}

fn rows(argument: &[u8]) -> Work<i64> {
    Ok(round(evaluate(argument, DefaultScale::Down)?, ROW))
}

/// The number as it stands, or added to the old value where a leading sign marks a change. The sum "is judged by 7".
fn new_value(argument: &[u8], old: i64, number: Work<i64>) -> Work<i64> {
    let number = number?;
    Ok(if is_change(argument) { old + number } else { number })
}

impl State {
    /// What a request does once its break, if any, is over. "Arguments not needed, and all of br bp fi nf ad na, are
    /// dropped (H). For the others a missing one means no action or refusal".
    pub fn act(&mut self, request: Request, arguments: &Arguments) -> Work<()> {
        let first = present(arguments, 0);
        match request {
            Request::Break => {}
            Request::Fill => self.filling = true,
            Request::NoFill => self.filling = false,
            Request::Adjust => self.adjusting = true,
            Request::NoAdjust => self.adjusting = false,
            Request::Space => {
                // "a missing one means [..] sp and ce 1"
                let count = first.map_or(Ok(1), rows)?;
                return self.space(count);
            }
            Request::BeginPage => return self.eject(self.page),
            Request::Centre => {
                let count = first.map_or(Ok(1), |argument| evaluate(argument, DefaultScale::Units))?;
                // "n of 0 or less ends centring"
                self.centring = count.max(0);
            }
            Request::PageLength => {
                // "pl 66 rows" where missing; "pl 1 to 500 rows and above the rows already used on the page"
                let length = match first {
                    None => 66,
                    Some(argument) => new_value(argument, self.page_length, rows(argument))?,
                };
                self.page_length = in_range(length, (self.row + 1).max(1), 500)?;
            }
            // "Ranges: ll 1 to 240 cells, in and the ti total 0 to 239, po 0 to 120"
            Request::LineLength => {
                // "ll in po the value before the last setting (start value at first)" where missing
                let setting = self.line_length;
                let value = first.map_or(Ok(setting.previous), |a| new_value(a, setting.value, cells(a)))?;
                self.line_length.set(in_range(value, 1, 240)?);
            }
            Request::Indent => {
                let setting = self.indent;
                let value = first.map_or(Ok(setting.previous), |a| new_value(a, setting.value, cells(a)))?;
                self.indent.set(in_range(value, 0, 239)?);
            }
            Request::PageOffset => {
                let setting = self.page_offset;
                let value = first.map_or(Ok(setting.previous), |a| new_value(a, setting.value, cells(a)))?;
                self.page_offset.set(in_range(value, 0, 120)?);
            }
            Request::TemporaryIndent => {
                // "for ti the old value is the indent at that moment, an unsigned ti is the total itself (H)"
                if let Some(argument) = first {
                    let total = new_value(argument, self.indent.value, cells(argument))?;
                    self.temporary_indent = Some(in_range(total, 0, 239)?);
                }
            }
            Request::NumberRegister => return self.set_register(first, present(arguments, 1), present(arguments, 2)),
            Request::When => return self.plant(first, present(arguments, 1)),
            Request::Define => {
                if let Some(bytes) = first {
                    return self.open_definition(name_argument(bytes)?);
                }
            }
            Request::Remove => {
                if let Some(bytes) = first {
                    return self.remove_text(name_argument(bytes)?);
                }
            }
            // Their lines are not parted into arguments.
            Request::DefineString | Request::If => unreachable!("dealt with as a line"),
        }
        Ok(())
    }

    /// nr: "Within a request the arguments are read and judged left to right, then 9, then 11 is tried."
    fn set_register(&mut self, name: Option<&[u8]>, value: Option<&[u8]>, step: Option<&[u8]>) -> Work<()> {
        let Some(bytes) = name else { return Ok(()) };
        let name = name_argument(bytes)?;
        let Some(argument) = value else { return Ok(()) };
        // "a predefined register written"
        if self.is_predefined(bytes) {
            return Err(BAD_VALUE);
        }
        let place = self.registers.iter().position(|register| register.name == name);
        let old = place.map_or(Register { name, value: 0, step: 0 }, |place| self.registers[place]);
        // "The sum with the old value is a result in the sense of 6 for nr only"
        let value = within_limit(new_value(argument, old.value, evaluate(argument, DefaultScale::Units))?)?;
        // "nr without a step the old step (0 at first)"
        let step = step.map_or(Ok(old.step), |argument| evaluate(argument, DefaultScale::Units))?;
        let register = Register { name, value, step };
        match place {
            Some(place) => self.registers[place] = register,
            None if self.registers.len() == REGISTER_LIMIT => return Err(TABLE_FULL),
            None => self.registers.push(register),
        }
        Ok(())
    }

    /// "wh plants a name at a row [..]; the same N is replaced and keeps its place in the order; no name removes."
    fn plant(&mut self, row: Option<&[u8]>, name: Option<&[u8]>) -> Work<()> {
        let Some(argument) = row else { return Ok(()) };
        let row = rows(argument)?;
        let Some(bytes) = name else {
            self.traps.retain(|trap| trap.row != row);
            return Ok(());
        };
        let name = name_argument(bytes)?;
        if let Some(trap) = self.traps.iter_mut().find(|trap| trap.row == row) {
            trap.name = name;
            return Ok(());
        }
        if self.traps.len() == TRAP_LIMIT {
            return Err(TABLE_FULL);
        }
        self.traps.push(Trap { row, name });
        Ok(())
    }

    /// "ds with a name only an empty string"; "In ds one leading " is dropped." After an if the text is written back.
    pub fn define_string_line(&mut self, line: &[u8], after_if: bool) -> Work<()> {
        let Some((bytes, behind)) = argument(line, next_space(line, 0)) else { return Ok(()) };
        if bytes.is_empty() {
            return Ok(());
        }
        let name = name_argument(&bytes)?;
        let mut text = &line[skip_spaces(line, behind)..];
        if let [b'"', rest @ ..] = text {
            text = rest;
        }
        let bytes = if after_if { written_back(text) } else { text.to_vec() };
        self.define_string(name, bytes)
    }
}
