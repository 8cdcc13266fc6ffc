//! The explicit state of the formatter. One piece of work takes it from one state to the next.

use std::rc::Rc;

use crate::fill::Collected;
use crate::refusal::{Stop, Work, DEEP_INPUT, STACK_LIMIT};
use crate::request::Request;
use crate::text::{Definition, Kind, Text};

/// "\& a mark of no width", as a byte of an expanded line. No source byte has this code.
pub const MARK: u8 = 0x80;
/// "backslash-space a fixed blank", as a byte of an expanded line. No source byte has this code.
pub const FIXED_BLANK: u8 = 0x81;

/// A name of one or two bytes; the second is 0 where there is none.
#[derive(Clone, Copy, Debug, PartialEq, Eq)]
pub struct Name([u8; 2]);

impl Name {
    /// The name made of one or two bytes; nothing for any other length.
    pub fn new(bytes: &[u8]) -> Option<Name> {
        match bytes {
            [first] => Some(Name([*first, 0])),
            [first, second] => Some(Name([*first, *second])),
            _ => None,
        }
    }
}

/// The arguments of a text called by name: at most nine.
pub type Arguments = Vec<Vec<u8>>;

/// A line as expanded. A text line stays one, whatever its first byte has become.
#[derive(Clone, Debug)]
pub enum Expanded {
    Text(Vec<u8>),
    Control(Vec<u8>),
}

/// An item of the input stack.
#[derive(Clone, Debug)]
pub enum Item {
    /// A macro or string being read.
    Reading { name: Name, kind: Kind, bytes: Rc<Vec<u8>>, at: usize, arguments: Rc<Arguments> },
    /// A line to be dealt with (again) as expanded.
    Line(Expanded),
    /// A text line with words left, from the gap at this place on.
    Words { line: Vec<u8>, at: usize },
    /// A request that acts after the trap its break sprang.
    Request { request: Request, arguments: Arguments },
    /// A bp between traps, with the page that it leaves.
    Eject { page: u32 },
    /// The end between traps.
    End,
}

/// How far the source has been read.
#[derive(Clone, Copy, Debug, PartialEq, Eq)]
pub enum Source {
    /// Bytes may follow.
    Open,
    /// The end has been read; the line it closes may still have work left.
    EndRead,
    /// The end's own break and ejection.
    Ending,
}

/// A setting with "the value before the last setting (start value at first)".
#[derive(Clone, Copy, Debug)]
pub struct Setting {
    pub value: i64,
    pub previous: i64,
}

impl Setting {
    fn start(value: i64) -> Setting {
        Setting { value, previous: value }
    }

    pub fn set(&mut self, value: i64) {
        self.previous = self.value;
        self.value = value;
    }
}

#[derive(Clone, Copy, Debug)]
pub struct Register {
    pub name: Name,
    pub value: i64,
    pub step: i64,
}

/// "wh plants a name at a row, negative ones counted up from the page end"
#[derive(Clone, Copy, Debug)]
pub struct Trap {
    pub row: i64,
    pub name: Name,
}

#[derive(Clone, Debug)]
pub struct State {
    // The source: the line gathered so far and what is known of it.
    pub gathered: Vec<u8>,
    pub line_begun: bool,
    pub line_number: u32,
    pub source: Source,
    pub stored_lines: u32,
    // Tables.
    pub registers: Vec<Register>,
    pub texts: Vec<Text>,
    pub definition: Option<Definition>,
    pub traps: Vec<Trap>,
    pub stack: Vec<Item>,
    // Settings, in cells and rows.
    pub line_length: Setting,
    pub indent: Setting,
    pub page_offset: Setting,
    pub page_length: i64,
    /// The ti total, until the next output line of text takes it.
    pub temporary_indent: Option<i64>,
    pub filling: bool,
    pub adjusting: bool,
    /// Input lines still to be centred.
    pub centring: i64,
    // The page: its number (0 before the first) and the rows used on it.
    pub page: u32,
    pub row: i64,
    // The collected line, and the gap before the first word of the next input line.
    pub collected: Option<Collected>,
    pub next_gap: usize,
    // Output that waits, and where the work has stopped for good.
    pub waiting: Vec<u8>,
    pub delivered: usize,
    pub closed: Option<Stop>,
}

impl State {
    /// "Start: ll 65, in 0, po 0, pl 66, filling and adjusting on."
    pub fn new() -> State {
        State {
            gathered: Vec::new(),
            line_begun: false,
            line_number: 0,
            source: Source::Open,
            stored_lines: 0,
            registers: Vec::new(),
            texts: Vec::new(),
            definition: None,
            traps: Vec::new(),
            stack: Vec::new(),
            line_length: Setting::start(65),
            indent: Setting::start(0),
            page_offset: Setting::start(0),
            page_length: 66,
            temporary_indent: None,
            filling: true,
            adjusting: true,
            centring: 0,
            page: 0,
            row: 0,
            collected: None,
            next_gap: 1,
            waiting: Vec::new(),
            delivered: 0,
            closed: None,
        }
    }

    /// "input stack past 16 items"
    pub fn push(&mut self, item: Item) -> Work<()> {
        if self.stack.len() == STACK_LIMIT {
            return Err(DEEP_INPUT);
        }
        self.stack.push(item);
        Ok(())
    }
}

impl Default for State {
    fn default() -> State {
        State::new()
    }
}
