//! Random documents cut into random blocks and rooms give the same pages and closing answer as the whole in one call.

use second::generate::{document, Random};
use second::refusal::STORE_LENGTH;
use second::session::{pages, Answer, Ending};
use second::state::State;

const DOCUMENTS: u64 = 24_000;
const SEED: u64 = 2026;

fn closed(ending: Ending) -> bool {
    matches!(ending, Ending::Done | Ending::Refused { .. })
}

/// Calls until the document is closed, with the rules of a call checked on the way.
fn in_calls(document: &[u8], random: &mut Random) -> (Vec<u8>, Ending, State) {
    let (mut state, mut out, mut at) = (State::new(), Vec::new(), 0);
    let (blocks, rooms) = (1 + random.below(40), 1 + random.below(40));
    loop {
        let end = document.len().min(at + random.below(blocks + 1));
        let last = end == document.len() && random.below(2) == 0;
        let room = random.below(rooms + 1);
        let before = out.len();
        let answer = state.call(STORE_LENGTH, &document[at..end], last, room, &mut out);
        assert!(answer.taken <= end - at, "more taken than lent");
        assert!(answer.written <= room, "more written than there is room for");
        assert_eq!(answer.written, out.len() - before, "the written count");
        let moved = answer.taken > 0 || answer.written > 0 || closed(answer.ending);
        assert!(moved || room == 0 || (end == at && !last), "a call with room and input makes progress");
        at += answer.taken;
        if closed(answer.ending) {
            return (out, answer.ending, state);
        }
    }
}

#[test]
fn cutting_changes_nothing() {
    let mut random = Random::new(SEED);
    let mut endings = [0u64; 13];
    for index in 0..DOCUMENTS {
        let document = document(SEED, index);
        let (whole, end) = pages(&document);
        let (cut, cut_end, mut state) = in_calls(&document, &mut random);
        assert_eq!((&cut, cut_end), (&whole, end), "document {index}: {}", document.escape_ascii());
        // "After done or refused (repeated) [..] no byte is taken."
        let mut more = Vec::new();
        let again = state.call(STORE_LENGTH, b"x\n", random.below(2) == 0, 9, &mut more);
        assert_eq!(again, Answer { taken: 0, written: 0, ending: end }, "document {index}");
        assert!(more.is_empty());
        if let Ending::Refused { number, .. } = end {
            endings[usize::from(number)] += 1;
        } else {
            endings[0] += 1;
        }
    }
    // The documents meet what they are meant to meet: pages that are done and most refusals.
    assert!(endings[0] > DOCUMENTS / 3, "{endings:?}");
    for number in [2, 4, 5, 6, 7, 8, 9, 10] {
        assert!(endings[number] > 0, "refusal {number}: {endings:?}");
    }
}

/// The beginning of the pages is written whatever the call list, also when it stops early.
#[test]
fn what_is_written_is_the_beginning_of_the_pages() {
    let (mut random, mut total) = (Random::new(SEED + 1), 0);
    for index in 0..2_000 {
        let document = document(SEED + 1, index);
        let (whole, _) = pages(&document);
        let (mut state, mut out, mut at) = (State::new(), Vec::new(), 0);
        let mut written = 0;
        for _ in 0..random.below(60) {
            let end = document.len().min(at + random.below(40));
            let answer =
                state.call(STORE_LENGTH, &document[at..end], end == document.len(), random.below(20), &mut out);
            at += answer.taken;
            written += answer.written;
            assert!(whole.starts_with(&out), "document {index}: {}", document.escape_ascii());
        }
        assert_eq!(written, out.len());
        total += written;
    }
    assert!(total > 10_000, "{total} bytes written");
}
