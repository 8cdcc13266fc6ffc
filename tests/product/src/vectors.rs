//! Every vector of a file: as one call, in small blocks with small rooms, and, where it has them, by its calls.

use second::session::{Answer, Ending};
use second::vector::{Call, Outcome, Question, Vector};

use crate::session::{claim, in_blocks, Session};

const BLOCKS: [usize; 3] = [1, 3, 7];
/// A room of 0 alone never leads on.
const ROOMS: [&[usize]; 3] = [&[0, 1], &[1], &[5]];

/// Nothing if the product gives what the vector expects, else the difference.
pub fn check(vector: &Vector) -> Result<(), String> {
    let question = &vector.question;
    match (&vector.expected, &question.calls) {
        (Outcome::Called { out, answers }, Some(calls)) => by_calls(question, calls, out, answers),
        (Outcome::Whole { out, end }, _) => whole(question, out, *end),
        _ => Err("answers without calls".to_string()),
    }
}

fn whole(question: &Question, pages: &[u8], end: Ending) -> Result<(), String> {
    let document = question.document.as_slice();
    for room in [pages.len(), pages.len() + 1] {
        let mut session = Session::new(vec![0; question.store]);
        let answer = session.call(document, true, room)?;
        same("whole", (pages, end), (&session.pages, answer.ending))?;
    }
    if question.store != second::refusal::STORE_LENGTH {
        return Ok(());
    }
    // Each call but every second takes or writes a byte.
    let most = 2 * (document.len() + pages.len() + 2);
    for block in BLOCKS {
        for rooms in ROOMS {
            let cut = format!("in blocks of {block} with rooms {rooms:?}");
            let (got, got_end) = in_blocks(document, block, rooms, most).map_err(|error| format!("{cut}: {error}"))?;
            same(&cut, (pages, end), (&got, got_end))?;
        }
    }
    Ok(())
}

fn same(how: &str, expected: (&[u8], Ending), got: (&[u8], Ending)) -> Result<(), String> {
    claim(got.1 == expected.1, &format!("{how}: expected {:?}, got {:?}", expected.1, got.1))?;
    claim(got.0 == expected.0, &format!("{how}: other pages:\n{}", got.0.escape_ascii()))
}

fn by_calls(question: &Question, calls: &[Call], out: &[u8], answers: &[Answer]) -> Result<(), String> {
    claim(calls.len() == answers.len(), "not as many answers as calls")?;
    let (mut session, mut at) = (Session::new(vec![0; question.store]), 0);
    for (index, (call, expected)) in calls.iter().zip(answers).enumerate() {
        let end = question.document.len().min(at + call.block.min(question.document.len()));
        let answer = session.call(&question.document[at..end], call.last, call.room)?;
        claim(answer == *expected, &format!("call {}: expected {expected:?}, got {answer:?}", index + 1))?;
        at += answer.taken;
    }
    claim(session.pages == out, &format!("other pages:\n{}", session.pages.escape_ascii()))
}
