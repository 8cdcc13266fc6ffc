//! Document 01, 'Filling': words, gaps, the collected line, and rows as printed.

use crate::page::Sprung;
use crate::refusal::Work;
use crate::request::Request;
use crate::state::{Expanded, Item, State, FIXED_BLANK, MARK};

/// A line being collected. "Room is ll minus indent, 0 if that is negative; it and the indent printed are fixed when
/// a line's first word is placed."
#[derive(Clone, Debug)]
pub struct Collected {
    room: usize,
    indent: usize,
    width: usize,
    /// The bytes of the words, joined.
    words: Vec<u8>,
    /// The place in `words` and the cells of each gap.
    gaps: Vec<(usize, usize)>,
}

/// Cells across: a mark has none.
fn width(bytes: &[u8]) -> usize {
    bytes.iter().filter(|&&byte| byte != MARK).count()
}

/// "a mark of no width [..] is never printed"; a fixed blank prints as a blank.
fn print(bytes: &[u8], row: &mut Vec<u8>) {
    row.extend(bytes.iter().filter(|&&byte| byte != MARK).map(|&byte| if byte == FIXED_BLANK { b' ' } else { byte }));
}

fn blanks(count: usize, row: &mut Vec<u8>) {
    row.resize(row.len() + count, b' ');
}

/// "the gap between input lines is 1, or 2 after a line ending in . ? ! (001)"
fn gap_after(line: &[u8]) -> usize {
    match line.last() {
        Some(b'.' | b'?' | b'!') => 2,
        _ => 1,
    }
}

impl State {
    /// "Output is po, indent, text, newline; blanks at a line's end are not written."
    fn write_row(&mut self, indent: usize, text: &[u8]) {
        let start = self.waiting.len();
        blanks(self.page_offset.value as usize + indent, &mut self.waiting);
        self.waiting.extend_from_slice(text);
        while self.waiting.len() > start && self.waiting.last() == Some(&b' ') {
            self.waiting.pop();
        }
        self.waiting.push(b'\n');
    }

    /// Writes the collected line as it is or with `extra` cells shared over its gaps: "e/k each, the last e mod k
    /// gaps one more (H)".
    fn write_collected(&mut self, line: Collected, extra: usize) {
        let mut text = Vec::with_capacity(line.width + extra);
        let (count, mut at) = (line.gaps.len(), 0);
        for (index, &(place, gap)) in line.gaps.iter().enumerate() {
            print(&line.words[at..place], &mut text);
            let one_more = usize::from(count - index <= extra % count);
            blanks(gap + extra / count + one_more, &mut text);
            at = place;
        }
        print(&line.words[at..], &mut text);
        self.write_row(line.indent, &text);
    }

    /// A break writes the collected line unadjusted, if there is one.
    pub fn break_line(&mut self) -> Work<Sprung> {
        let Some(line) = self.collected.take() else { return Ok(None) };
        self.write_collected(line, 0);
        self.row_written()
    }

    /// "Lines written for overflow, with adjusting on, share the missing e cells over k gaps [..]; a line without gaps
    /// stays as it is."
    fn overflow(&mut self) -> Work<Sprung> {
        let Some(line) = self.collected.take() else { return Ok(None) };
        let adjusted = self.adjusting && !line.gaps.is_empty();
        let extra = if adjusted { line.room - line.width } else { 0 };
        self.write_collected(line, extra);
        self.row_written()
    }

    /// The indent of the next output line of text: the ti total, if one is kept, else the indent.
    fn take_indent(&mut self) -> usize {
        self.temporary_indent.take().unwrap_or(self.indent.value) as usize
    }

    fn room_beside(&self, indent: usize) -> usize {
        (self.line_length.value as usize).saturating_sub(indent)
    }

    fn start_line(&mut self, word: &[u8]) {
        let indent = self.take_indent();
        let room = self.room_beside(indent);
        self.collected = Some(Collected { room, indent, width: width(word), words: word.to_vec(), gaps: Vec::new() });
    }

    /// "A word joins if width + gap + word is at most room; else the line is written and the word starts the next, its
    /// gap lost."
    fn place(&mut self, gap: usize, word: &[u8]) -> Work<Sprung> {
        let wide = width(word);
        match &mut self.collected {
            None => {}
            Some(line) if line.width + gap + wide <= line.room => {
                line.gaps.push((line.words.len(), gap));
                line.words.extend_from_slice(word);
                line.width += gap + wide;
                return Ok(None);
            }
            Some(_) => {
                let sprung = self.overflow()?;
                self.start_line(word);
                return Ok(sprung);
            }
        }
        self.start_line(word);
        Ok(None)
    }

    /// A line of text, as expanded.
    pub fn text_line(&mut self, line: Vec<u8>) -> Work<()> {
        // "The first page starts at the first text line [..], and that line, as expanded, is dealt with after the top
        // macro."
        if self.page == 0 {
            let sprung = self.start_first_page();
            if sprung.is_some() {
                return self.spring(Some(Item::Line(Expanded::Text(line))), sprung);
            }
        }
        // "trailing spaces are dropped"
        let length = line.iter().rposition(|&byte| byte != b' ').map_or(0, |last| last + 1);
        if length == 0 {
            return self.empty_line();
        }
        // "Leading spaces break"; "With nf or ce a collected line is written first."
        let as_it_stands = !self.filling || self.centring > 0;
        if line[0] == b' ' || as_it_stands {
            let sprung = self.break_line()?;
            if sprung.is_some() {
                // "a text line that broke is dealt with afresh (H)"
                return self.spring(Some(Item::Line(Expanded::Text(line))), sprung);
            }
        }
        let mut line = line;
        line.truncate(length);
        if as_it_stands {
            return self.write_as_it_stands(&line);
        }
        // ".. then stand as fixed blanks."
        line.iter_mut().take_while(|byte| **byte == b' ').for_each(|byte| *byte = FIXED_BLANK);
        self.fill_words(line, 0, true)
    }

    /// "A line that, as expanded, has no bytes or only spaces acts as sp 1"; after its break's trap it "counts here as
    /// the request sp 1".
    fn empty_line(&mut self) -> Work<()> {
        let sprung = self.break_line()?;
        if sprung.is_some() {
            return self.spring(Some(Item::Request { request: Request::Space, arguments: Vec::new() }), sprung);
        }
        self.space(1)
    }

    /// "With nf each line is written as it stands; ce centres n input lines, empty ones not counted, left blanks half
    /// the spare room, cut down, none if the line is wider".
    fn write_as_it_stands(&mut self, line: &[u8]) -> Work<()> {
        let indent = self.take_indent();
        let mut left = 0;
        if self.centring > 0 {
            self.centring -= 1;
            left = self.room_beside(indent).saturating_sub(width(line)) / 2;
        }
        let mut text = Vec::with_capacity(left + line.len());
        blanks(left, &mut text);
        print(line, &mut text);
        self.write_row(indent, &text);
        let sprung = self.row_written()?;
        self.spring(None, sprung)
    }

    /// Places the words of a line from the gap at `at` on. "A word is a run without spaces. Gaps inside a line are
    /// kept".
    pub fn fill_words(&mut self, line: Vec<u8>, mut at: usize, at_line_start: bool) -> Work<()> {
        let mut between_lines = at_line_start;
        while at < line.len() {
            let spaces = line[at..].iter().take_while(|&&byte| byte == b' ').count();
            let start = at + spaces;
            let end = start + line[start..].iter().take_while(|&&byte| byte != b' ').count();
            let gap = if between_lines { self.next_gap } else { spaces };
            between_lines = false;
            at = end;
            let sprung = self.place(gap, &line[start..end])?;
            if sprung.is_some() && at < line.len() {
                // "If a trap springs inside a text line, the word that did not fit is placed, then the macro read,
                // then the other words". The line has not ended, so the macro's first word follows with gap 1.
                self.next_gap = 1;
                return self.spring(Some(Item::Words { line, at }), sprung);
            }
            if sprung.is_some() {
                self.next_gap = gap_after(&line);
                return self.spring(None, sprung);
            }
        }
        self.next_gap = gap_after(&line);
        Ok(())
    }
}
