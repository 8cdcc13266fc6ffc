//! The product as C sees it, with its answers as the second formatter has them.

use second::session::{Answer, Ending};

pub use crate::binding::{Record, WORDS};

/// Where the numbers of a record lie that are no bytes of text, names or rows: damage there is seen soonest.
pub const NUMBERS: usize = std::mem::offset_of!(Record, gathered);

extern "C" {
    fn rockavine_version() -> u32;
}

pub fn version() -> u32 {
    // SAFETY: it takes nothing and touches no memory.
    unsafe { rockavine_version() }
}

/// One call; nothing if the code it answers is none of the header's.
pub fn call(record: &mut Record, store: &mut [u8], block: &[u8], last: bool, out: &mut [u8]) -> Option<Answer> {
    let reply = record.call(store, block, last, out);
    let ending = match (reply.code, reply.number, reply.line) {
        (0, 0, 0) => Ending::NeedsInput,
        (1, 0, 0) => Ending::NeedsRoom,
        (2, 0, 0) => Ending::Done,
        (3, number @ 1..=12, line) => Ending::Refused { number, line },
        _ => return None,
    };
    Some(Answer { taken: reply.taken, written: reply.written, ending })
}

pub fn bytes(record: &Record) -> &[u8] {
    // SAFETY: the record is made of numbers, and nothing pads it.
    unsafe { std::slice::from_raw_parts((record as *const Record).cast(), std::mem::size_of::<Record>()) }
}

pub fn bytes_mut(record: &mut Record) -> &mut [u8] {
    // SAFETY: as above, and any bytes make a record.
    unsafe { std::slice::from_raw_parts_mut((record as *mut Record).cast(), std::mem::size_of::<Record>()) }
}
