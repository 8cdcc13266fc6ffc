//! Document 01, 'Rows, pages, traps'.

use crate::refusal::{Stop, Work, OPEN_DEFINITION, PAGE_LIMIT, TOO_LONG};
use crate::state::{Item, Name, Source, State, Trap};

/// The name of the text that a row reached springs, if any.
pub type Sprung = Option<Name>;

impl State {
    /// The trap seen at the present row: "Traps outside rows 0 to pl-1 sleep"; "of two at one row the earlier planted
    /// is seen".
    fn trap_here(&self) -> Option<Trap> {
        // "negative ones counted up from the page end". The present row is within the page, so others sleep.
        let place = |trap: &Trap| if trap.row < 0 { trap.row + self.page_length } else { trap.row };
        self.traps.iter().copied().find(|trap| place(trap) == self.row)
    }

    /// "a name with no user text springs nothing"
    fn sprung_here(&self) -> Sprung {
        self.trap_here().map(|trap| trap.name).filter(|&name| self.text(name).is_some())
    }

    /// Holds what has work left, then puts the sprung text on the stack.
    pub fn spring(&mut self, held: Option<Item>, sprung: Sprung) -> Work<()> {
        if let Some(item) = held {
            self.push(item)?;
        }
        match sprung {
            Some(name) => self.push_text(name, Vec::new()),
            None => Ok(()),
        }
    }

    /// "A written row moves down by one and springs the trap it reaches."
    pub fn row_written(&mut self) -> Work<Sprung> {
        self.row += 1;
        if self.row == self.page_length {
            self.next_page()?;
        }
        Ok(self.sprung_here())
    }

    /// "At the page end the next page starts at once and springs row 0."
    fn next_page(&mut self) -> Work<()> {
        // The end "stops, done, at the first page end reached, by its own break too, with no new page".
        if self.source == Source::Ending {
            return Err(Stop::Done);
        }
        // "or at the start of the page past it"
        if self.page == PAGE_LIMIT {
            return Err(TOO_LONG);
        }
        self.page += 1;
        self.row = 0;
        Ok(())
    }

    /// "The first page starts at the first text line, break, sp or bp"
    pub fn start_first_page(&mut self) -> Sprung {
        self.page = 1;
        self.row = 0;
        self.sprung_here()
    }

    fn blank_row(&mut self) -> Work<Sprung> {
        self.waiting.push(b'\n');
        self.row_written()
    }

    /// "sp stops at the nearest trap or page end and drops the rest; 0 or less moves nothing."
    pub fn space(&mut self, count: i64) -> Work<()> {
        let page = self.page;
        for _ in 0..count {
            let sprung = self.blank_row()?;
            // A trap stops it even if its name springs nothing.
            if self.page != page || self.trap_here().is_some() {
                return self.spring(None, sprung);
            }
        }
        Ok(())
    }

    /// "any other ejects: blank rows to the next trap, its macro, and on until the page has changed"
    pub fn eject(&mut self, page: u32) -> Work<()> {
        while self.page == page {
            let sprung = self.blank_row()?;
            if sprung.is_some() {
                let held = (self.page == page).then_some(Item::Eject { page });
                return self.spring(held, sprung);
            }
        }
        Ok(())
    }

    /// "The end breaks, then ejects and stops, done, at the first page end reached"
    pub fn begin_end(&mut self) -> Work<()> {
        if self.definition.is_some() {
            return Err(OPEN_DEFINITION);
        }
        // "at row 0 with nothing collected it writes nothing, and where no page has started it starts none"
        if self.page == 0 || (self.row == 0 && self.collected.is_none()) {
            return Err(Stop::Done);
        }
        self.source = Source::Ending;
        let sprung = self.break_line()?;
        if sprung.is_some() {
            return self.spring(Some(Item::End), sprung);
        }
        self.eject_to_the_end()
    }

    /// The end's ejection; it never returns without an item left on the stack, since a page end is done.
    pub fn eject_to_the_end(&mut self) -> Work<()> {
        loop {
            let sprung = self.blank_row()?;
            if sprung.is_some() {
                return self.spring(Some(Item::End), sprung);
            }
        }
    }
}
