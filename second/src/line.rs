//! Document 01, 'Lines and escapes': control lines and text lines, definitions being read, conditions.

use crate::argument::{arguments, next_space, skip_spaces};
use crate::escape::Mode;
use crate::number::{evaluate, DefaultScale};
use crate::refusal::Work;
use crate::request::Request;
use crate::state::{Arguments, Expanded, Item, Name, State};

/// What a control line's name stands for.
enum Meaning {
    UserText(Name),
    Request(Request),
}

/// "A line whose first raw byte is . or ' is a control line."
fn is_control(line: &[u8]) -> bool {
    matches!(line.first(), Some(b'.' | b'\''))
}

impl State {
    /// "User names hide requests." Nothing for "names of no or more than two bytes, or unknown ones".
    fn meaning(&self, line: &[u8]) -> Option<Meaning> {
        // "Its name is the raw bytes directly after that one up to a space"
        let bytes = &line[1..next_space(line, 1)];
        let name = Name::new(bytes)?;
        if self.text(name).is_some() {
            return Some(Meaning::UserText(name));
        }
        Request::named(bytes).map(Meaning::Request)
    }

    /// Deals with a line from the source or from a text, as it stands there.
    pub fn raw_line(&mut self, line: &[u8], given: &Arguments) -> Work<()> {
        if self.definition.is_some() {
            return self.body_line(line, given);
        }
        if !is_control(line) {
            let expanded = self.expand(line, 0, given, Mode::Plain)?;
            return self.text_line(expanded);
        }
        // ".. are ignored unexpanded"
        let Some(meaning) = self.meaning(line) else { return Ok(()) };
        // The name is raw bytes: what follows it is expanded.
        let behind = next_space(line, 1);
        if let Meaning::Request(Request::DefineString) = meaning {
            let expanded = self.expand(line, behind, given, Mode::Copy)?;
            return self.define_string_line(&expanded, false);
        }
        let expanded = self.expand(line, behind, given, Mode::Plain)?;
        self.control_line(meaning, expanded)
    }

    /// "A definition closes at a line that is exactly two periods. It is compared raw."
    fn body_line(&mut self, line: &[u8], given: &Arguments) -> Work<()> {
        if line == b".." {
            self.close_definition();
            return Ok(());
        }
        let stored = self.expand(line, 0, given, Mode::Copy)?;
        self.add_to_definition(&stored)
    }

    /// Deals with a line held as expanded.
    pub fn held_line(&mut self, line: Expanded) -> Work<()> {
        match line {
            Expanded::Text(line) => self.text_line(line),
            Expanded::Control(line) => self.expanded_line(line),
        }
    }

    /// "is dealt with as a line without second expansion"
    fn expanded_line(&mut self, line: Vec<u8>) -> Work<()> {
        if !is_control(&line) {
            return self.text_line(line);
        }
        match self.meaning(&line) {
            None => Ok(()),
            Some(Meaning::Request(Request::DefineString)) => self.define_string_line(&line, true),
            Some(meaning) => self.control_line(meaning, line),
        }
    }

    fn control_line(&mut self, meaning: Meaning, line: Vec<u8>) -> Work<()> {
        match meaning {
            Meaning::UserText(name) => self.push_text(name, arguments(&line)),
            Meaning::Request(Request::If) => self.condition_line(&line),
            Meaning::Request(request) => self.request_line(request, line),
        }
    }

    /// A request that may break or start the first page: "br sp bp fi nf ce in ti break, unless called with ', before
    /// their arguments are judged (H)."
    fn request_line(&mut self, request: Request, line: Vec<u8>) -> Work<()> {
        let breaks = request.breaks() && line[0] == b'.';
        // "The first page starts at the first text line, break, sp or bp"
        if self.page == 0 && (breaks || matches!(request, Request::Space | Request::BeginPage)) {
            let sprung = self.start_first_page();
            if request == Request::BeginPage {
                // "A bp that starts the first page does no more (H)"
                return self.spring(None, sprung);
            }
            if sprung.is_some() {
                return self.spring(Some(Item::Line(Expanded::Control(line))), sprung);
            }
        }
        let arguments = arguments(&line);
        if breaks {
            let sprung = self.break_line()?;
            if sprung.is_some() {
                // "If that break springs a trap, the request acts after its macro is read"; br has nothing left to do.
                let held = (request != Request::Break).then_some(Item::Request { request, arguments });
                return self.spring(held, sprung);
            }
        }
        self.act(request, &arguments)
    }

    /// "The condition of an if ends at a space [..]. What follows its spaces, if anything, is dealt with as a line".
    fn condition_line(&mut self, line: &[u8]) -> Work<()> {
        let start = skip_spaces(line, next_space(line, 0));
        let end = next_space(line, start);
        if start == end {
            return Ok(());
        }
        let holds = self.condition(&line[start..end])?;
        let rest = &line[skip_spaces(line, end)..];
        if holds && !rest.is_empty() {
            return self.expanded_line(rest.to_vec());
        }
        Ok(())
    }

    /// "o (odd page), e (even page), t (never), n (always) or an expression; ! negates; anything else earns 6 (H)"
    fn condition(&self, condition: &[u8]) -> Work<bool> {
        let (negated, tested) = match condition {
            [b'!', tested @ ..] => (true, tested),
            tested => (false, tested),
        };
        let holds = match tested {
            b"o" => self.page % 2 == 1,
            b"e" => self.page.is_multiple_of(2),
            b"t" => false,
            b"n" => true,
            expression => evaluate(expression, DefaultScale::Units)? > 0,
        };
        Ok(holds != negated)
    }
}
