//! A session with the product, each call held to what every call promises.

use second::refusal::STORE_LENGTH;
use second::session::{Answer, Ending};

use crate::product::{bytes, call, Record};

/// What unwritten bytes of the room hold: no page has it.
const UNWRITTEN: u8 = 0xa5;
/// Bytes behind the room, which no call may touch.
const BEHIND: usize = 16;

pub const REFUSED_1: Answer = Answer { taken: 0, written: 0, ending: Ending::Refused { number: 1, line: 0 } };

pub fn is_closed(ending: Ending) -> bool {
    matches!(ending, Ending::Done | Ending::Refused { .. })
}

/// Nothing if the claim holds, else the message.
pub fn claim(holds: bool, message: &str) -> Result<(), String> {
    if holds {
        return Ok(());
    }
    Err(message.to_string())
}

pub struct Session {
    pub record: Box<Record>,
    pub store: Vec<u8>,
    /// All bytes written so far.
    pub pages: Vec<u8>,
    room: Vec<u8>,
}

impl Session {
    /// A session at its start, with a store of that content.
    pub fn new(store: Vec<u8>) -> Session {
        Session { record: Record::start(), store, pages: Vec::new(), room: Vec::new() }
    }

    /// One call.
    pub fn call(&mut self, block: &[u8], last: bool, room: usize) -> Result<Answer, String> {
        self.room.clear();
        self.room.resize(room + BEHIND, UNWRITTEN);
        let answer = call(&mut self.record, &mut self.store, block, last, &mut self.room[..room]);
        let answer = answer.ok_or("an answer that the header does not name")?;
        claim(answer.taken <= block.len(), "more taken than lent")?;
        claim(answer.written <= room, "more written than there is room for")?;
        let unwritten = self.room[answer.written..].iter().all(|&byte| byte == UNWRITTEN);
        claim(unwritten, "bytes behind the written ones are changed")?;
        self.pages.extend_from_slice(&self.room[..answer.written]);
        let moved = answer.taken > 0 || answer.written > 0 || is_closed(answer.ending);
        claim(moved || room == 0 || (block.is_empty() && !last), "no progress, with room and input")?;
        Ok(answer)
    }

    /// A call that is to be answered by refusal 1 and to change nothing.
    pub fn is_turned_away(&mut self, block: &[u8], last: bool, room: usize) -> Result<(), String> {
        let (record, store) = (self.record.clone(), self.store.clone());
        let answer = self.call(block, last, room)?;
        claim(answer == REFUSED_1, &format!("{answer:?} in place of refusal 1"))?;
        self.is_as_before(&record, &store)
    }

    pub fn is_as_before(&self, record: &Record, store: &[u8]) -> Result<(), String> {
        claim(bytes(&self.record) == bytes(record), "refusal 1 changed the record")?;
        claim(self.store == store, "refusal 1 changed the store")
    }
}

/// The pages and the closing answer of a document that is handed over in blocks of one length, with rooms by turns.
pub fn in_blocks(document: &[u8], block: usize, rooms: &[usize], most: usize) -> Result<(Vec<u8>, Ending), String> {
    let (mut session, mut at) = (Session::new(vec![0; STORE_LENGTH]), 0);
    for turn in 0..most {
        let end = document.len().min(at + block);
        let answer = session.call(&document[at..end], end == document.len(), rooms[turn % rooms.len()])?;
        at += answer.taken;
        if is_closed(answer.ending) {
            return Ok((session.pages, answer.ending));
        }
    }
    Err(format!("not closed after {most} calls"))
}
