//! A session with the product through its C interface.

use std::hint::black_box;

use crate::binding::Record;

/// What include/rockavine.h states.
const STORE_LENGTH: usize = 8192;
const NEEDS_INPUT: u32 = 0;
const NEEDS_ROOM: u32 = 1;
const DONE: u32 = 2;

/// Formats a source that comes in blocks of this length and throws the pages away: how many calls it took, or nothing if
/// it is refused.
pub fn session(source: &[u8], block: usize, room: usize) -> Option<usize> {
    let (mut record, mut store, mut out) = (Record::start(), vec![0; STORE_LENGTH], vec![0; room]);
    let (mut at, mut calls) = (0, 0);
    loop {
        let end = source.len().min(at + block);
        let reply = record.call(&mut store, &source[at..end], end == source.len(), &mut out);
        black_box(&out[..reply.written]);
        at += reply.taken;
        calls += 1;
        match reply.code {
            NEEDS_INPUT | NEEDS_ROOM => {}
            DONE => return Some(calls),
            _ => {
                println!("refused {} at line {}", reply.number, reply.line);
                return None;
            }
        }
    }
}
