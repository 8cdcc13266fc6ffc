//! Document 01, 'Lines and escapes' and 'Refusal numbers': macros and strings, their names and their room.

use std::rc::Rc;

use crate::refusal::{
    Work, DEEP_INPUT, LIVE_TEXT_LIMIT, NAME_LIMIT, OPEN_DEFINITION, STORED_LINES_LIMIT, TABLE_FULL, TEXT_IN_USE,
};
use crate::state::{Arguments, Item, Name, State};

#[derive(Clone, Copy, Debug, PartialEq, Eq)]
pub enum Kind {
    Macro,
    String,
}

/// "String bytes and macro lines with a newline each are live text."
#[derive(Clone, Debug)]
pub struct Text {
    pub name: Name,
    pub kind: Kind,
    pub bytes: Rc<Vec<u8>>,
}

/// A definition being read: "A macro exists once closed."
#[derive(Clone, Debug)]
pub struct Definition {
    pub name: Name,
    pub body: Vec<u8>,
}

impl State {
    pub fn text(&self, name: Name) -> Option<&Text> {
        self.texts.iter().find(|text| text.name == name)
    }

    /// "a text on the input stack redefined or removed"
    fn not_being_read(&self, name: Name) -> Work<()> {
        let being_read =
            self.stack.iter().any(|item| matches!(item, Item::Reading { name: other, .. } if *other == name));
        if being_read {
            Err(TEXT_IN_USE)
        } else {
            Ok(())
        }
    }

    /// The live bytes of all texts but this one.
    fn live_bytes_without(&self, name: Name) -> usize {
        self.texts.iter().filter(|text| text.name != name).map(|text| text.bytes.len()).sum()
    }

    fn names_without(&self, name: Name) -> usize {
        self.texts.iter().filter(|text| text.name != name).count()
    }

    /// "The room of redefined or removed text is used again".
    fn forget(&mut self, name: Name) {
        self.texts.retain(|text| text.name != name);
    }

    /// "then 9, then 11 is tried"; "the old text counts as gone when the new definition starts"
    pub fn open_definition(&mut self, name: Name) -> Work<()> {
        self.not_being_read(name)?;
        if self.names_without(name) == NAME_LIMIT {
            return Err(TABLE_FULL);
        }
        self.forget(name);
        self.definition = Some(Definition { name, body: Vec::new() });
        Ok(())
    }

    /// A body line as stored, judged line by line.
    pub fn add_to_definition(&mut self, line: &[u8]) -> Work<()> {
        let others: usize = self.texts.iter().map(|text| text.bytes.len()).sum();
        let definition = self.definition.as_mut().expect("a definition is open");
        if others + definition.body.len() + line.len() + 1 > LIVE_TEXT_LIMIT {
            return Err(TABLE_FULL);
        }
        definition.body.extend_from_slice(line);
        definition.body.push(b'\n');
        Ok(())
    }

    pub fn close_definition(&mut self) {
        if let Some(Definition { name, body }) = self.definition.take() {
            self.texts.push(Text { name, kind: Kind::Macro, bytes: Rc::new(body) });
        }
    }

    /// "the old text counts as gone [..] for ds after its line is expanded"
    pub fn define_string(&mut self, name: Name, bytes: Vec<u8>) -> Work<()> {
        self.not_being_read(name)?;
        if self.names_without(name) == NAME_LIMIT || self.live_bytes_without(name) + bytes.len() > LIVE_TEXT_LIMIT {
            return Err(TABLE_FULL);
        }
        self.forget(name);
        self.texts.push(Text { name, kind: Kind::String, bytes: Rc::new(bytes) });
        Ok(())
    }

    /// "rm of a name with no user text does nothing."
    pub fn remove_text(&mut self, name: Name) -> Work<()> {
        self.not_being_read(name)?;
        self.forget(name);
        Ok(())
    }

    /// Puts a text on the input stack, if there is one of this name.
    pub fn push_text(&mut self, name: Name, arguments: Arguments) -> Work<()> {
        let Some(text) = self.text(name) else { return Ok(()) };
        let (kind, bytes) = (text.kind, Rc::clone(&text.bytes));
        self.push(Item::Reading { name, kind, bytes, at: 0, arguments: Rc::new(arguments) })
    }

    /// Reads the next line of the text on top of the stack and deals with it, or takes the finished text off:
    /// "A finished text leaves the stack when the next line is asked for."
    pub fn read_text(&mut self) -> Work<()> {
        let Some(Item::Reading { kind, bytes, at, arguments, .. }) = self.stack.last_mut() else { return Ok(()) };
        let start = *at;
        let end = match kind {
            // "A string called as a macro is one line." An empty one too, so it is finished only past its end.
            Kind::String if start <= bytes.len() => bytes.len(),
            Kind::Macro if start < bytes.len() => {
                start + bytes[start..].iter().position(|&byte| byte == b'\n').expect("macro lines end in a newline")
            }
            _ => {
                // "a macro definition not ended when its input ends"
                if self.definition.is_some() {
                    return Err(OPEN_DEFINITION);
                }
                self.stack.pop();
                return Ok(());
            }
        };
        *at = end + 1;
        let (bytes, arguments) = (Rc::clone(bytes), Rc::clone(arguments));
        // "past 10,000 stored lines read for one source line"
        if self.stored_lines == STORED_LINES_LIMIT {
            return Err(DEEP_INPUT);
        }
        self.stored_lines += 1;
        self.raw_line(&bytes[start..end], &arguments)
    }
}
