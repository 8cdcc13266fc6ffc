//! Random documents, by the product and by the second formatter, call for call.

use second::crowd::crowded;
use second::generate::{document, Random};
use second::refusal::STORE_LENGTH;
use second::session::pages;
use second::state::State;

use crate::session::{claim, is_closed, Session};

/// The document of this seed and index: by turns one that leans on interactions and one that leans on bounds.
pub fn drawn(seed: u64, index: u64) -> Vec<u8> {
    if index.is_multiple_of(2) {
        return document(seed, index / 2);
    }
    crowded(seed, index / 2)
}

/// A store of any content.
pub fn any_store(random: &mut Random) -> Vec<u8> {
    (0..STORE_LENGTH).map(|_| random.below(256) as u8).collect()
}

/// Nothing if the product does what the second formatter does, else the difference.
pub fn check(document: &[u8], random: &mut Random) -> Result<(), String> {
    whole(document, any_store(random)).map_err(|error| format!("whole: {error}"))?;
    in_calls(document, random).map_err(|error| format!("in calls: {error}"))
}

fn whole(document: &[u8], store: Vec<u8>) -> Result<(), String> {
    let (expected, end) = pages(document);
    let mut session = Session::new(store);
    let answer = session.call(document, true, expected.len())?;
    claim(answer.ending == end, &format!("expected {end:?}, got {:?}", answer.ending))?;
    claim(session.pages == expected, &format!("other pages:\n{}", session.pages.escape_ascii()))
}

/// The next call: the block's end, the last mark, the room.
fn next_call(at: usize, length: usize, longest: (usize, usize), random: &mut Random) -> (usize, bool, usize) {
    let end = length.min(at + random.below(longest.0 + 1));
    (end, end == length && random.below(2) == 0, random.below(longest.1 + 1))
}

fn in_calls(document: &[u8], random: &mut Random) -> Result<(), String> {
    let (mut session, mut state, mut expected) = (Session::new(any_store(random)), State::new(), Vec::new());
    let longest = [(3, 3), (40, 40), (900, 4), (4, 900), (600, 900)][random.below(5)];
    let (mut at, mut closed) = (0, 0);
    // A closed session repeats its answer.
    while closed < 3 {
        let (end, last, room) = next_call(at, document.len(), longest, random);
        let before = expected.len();
        let wanted = state.call(STORE_LENGTH, &document[at..end], last, room, &mut expected);
        let answer = session.call(&document[at..end], last, room)?;
        let call = format!("bytes {at} to {end}, last {last}, room {room}");
        claim(answer == wanted, &format!("{call}: expected {wanted:?}, got {answer:?}"))?;
        claim(session.pages[before..] == expected[before..], &format!("{call}: other bytes are written"))?;
        at += answer.taken;
        closed += usize::from(is_closed(answer.ending));
    }
    Ok(())
}
