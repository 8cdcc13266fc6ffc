//! Calls one by one: refusal 1, and answers that only a list of calls shows.

use second::refusal::STORE_LENGTH;
use second::session::{Answer, Ending};
use second::state::State;

const SAMPLE: &[u8] = b".pl 5\n.ll 20\nLift the cover and\ncheck the lamp.\nThen close it.\n";
const SAMPLE_PAGES: &[u8] = b"Lift the  cover  and\ncheck   the    lamp.\nThen close it.\n\n\n";

fn call(state: &mut State, store: usize, block: &[u8], last: bool, room: usize) -> (Answer, Vec<u8>) {
    let mut out = Vec::new();
    let answer = state.call(store, block, last, room, &mut out);
    (answer, out)
}

#[test]
fn the_session_of_document_01() {
    let (answer, out) = call(&mut State::new(), STORE_LENGTH, SAMPLE, true, 100);
    assert_eq!(out, SAMPLE_PAGES);
    assert_eq!(out.len(), 59);
    assert_eq!(answer, Answer { taken: SAMPLE.len(), written: 59, ending: Ending::Done });
}

/// "1 comes first, gives line 0, takes and writes nothing and changes nothing."
#[test]
fn a_store_of_another_length_is_refused_and_nothing_changes() {
    let refused = Answer { taken: 0, written: 0, ending: Ending::Refused { number: 1, line: 0 } };
    let mut state = State::new();
    for length in [0, 1, 8191, 8193, usize::MAX] {
        assert_eq!(call(&mut state, length, SAMPLE, true, 100), (refused, vec![]));
    }
    let (first, mut pages) = call(&mut state, STORE_LENGTH, &SAMPLE[..40], false, 100);
    assert_eq!(first.ending, Ending::NeedsInput);
    assert_eq!(call(&mut state, 8191, &SAMPLE[40..], true, 100), (refused, vec![]));
    let (second, rest) = call(&mut state, STORE_LENGTH, &SAMPLE[40..], true, 100);
    pages.extend(rest);
    assert_eq!((second.ending, pages.as_slice()), (Ending::Done, SAMPLE_PAGES));
    // After done, too, refusal 1 comes first and changes nothing.
    assert_eq!(call(&mut state, 0, b"x", true, 1), (refused, vec![]));
    assert_eq!(call(&mut state, STORE_LENGTH, b"x", true, 1).0, Answer { taken: 0, written: 0, ending: Ending::Done });
}

#[test]
fn a_refused_session_repeats_its_refusal() {
    let mut state = State::new();
    let refused = Ending::Refused { number: 7, line: 1 };
    assert_eq!(
        call(&mut state, STORE_LENGTH, b".ll 0\n", false, 9).0,
        Answer { taken: 6, written: 0, ending: refused }
    );
    for (block, last, room) in [(&b".ll 0\n"[..], false, 9), (b"", true, 0), (b"text\n", true, 99)] {
        assert_eq!(
            call(&mut state, STORE_LENGTH, block, last, room),
            (Answer { taken: 0, written: 0, ending: refused }, vec![])
        );
    }
}

/// "Waiting output is delivered before done or a refusal."
#[test]
fn waiting_output_comes_before_a_refusal() {
    let mut state = State::new();
    let document = b".pl 3\na\n.in 5/0\n";
    let (answer, out) = call(&mut state, STORE_LENGTH, document, true, 1);
    assert_eq!((answer.taken, answer.ending, out.as_slice()), (document.len(), Ending::NeedsRoom, &b"a"[..]));
    let (answer, out) = call(&mut state, STORE_LENGTH, b"", false, 1);
    assert_eq!((answer.ending, out.as_slice()), (Ending::Refused { number: 6, line: 3 }, &b"\n"[..]));
}

#[test]
fn no_bytes_give_no_bytes() {
    let mut state = State::new();
    assert_eq!(
        call(&mut state, STORE_LENGTH, b"", false, 9).0,
        Answer { taken: 0, written: 0, ending: Ending::NeedsInput }
    );
    assert_eq!(call(&mut state, STORE_LENGTH, b"", true, 0).0, Answer { taken: 0, written: 0, ending: Ending::Done });
}
