//! Records of running sessions with damaged bytes, and stores of other lengths: each call answers, and refusal 1
//! changes nothing.

use second::generate::Random;
use second::refusal::STORE_LENGTH;

use crate::limits::{breaks, BROKEN};
use crate::product::{bytes_mut, NUMBERS, WORDS};
use crate::random::{any_store, drawn};
use crate::session::{claim, is_closed, Session, REFUSED_1};

const LENGTHS: [usize; 6] = [0, 1, 8191, 8193, 4096, 16384];
/// Calls on one damaged record.
const CALLS: usize = 40;

/// How many of the damaged records were turned away at once, and of how many the words alone say that they must be.
#[derive(Default)]
pub struct Seen {
    pub turned_away: u64,
    pub broken: u64,
}

/// Nothing if all is as promised with the document of this seed and index, else what is not.
pub fn check(seed: u64, index: u64, random: &mut Random, seen: &mut Seen) -> Result<(), String> {
    let document = drawn(seed, index);
    let (mut session, at) = running(&document, random)?;
    other_lengths(&mut session, &document[at..], random).map_err(|error| format!("another length: {error}"))?;
    damaged(&mut session, &document[at..], random, seen).map_err(|error| format!("damaged: {error}"))
}

/// A session after some calls, and how many bytes are taken.
fn running(document: &[u8], random: &mut Random) -> Result<(Session, usize), String> {
    let (mut session, mut at) = (Session::new(any_store(random)), 0);
    for _ in 0..random.below(12) {
        let end = document.len().min(at + random.below(80));
        let answer =
            session.call(&document[at..end], end == document.len() && random.below(2) == 0, random.below(80))?;
        claim(answer != REFUSED_1, "a record that a call handed back is turned away")?;
        at += answer.taken;
    }
    Ok((session, at))
}

fn other_lengths(session: &mut Session, rest: &[u8], random: &mut Random) -> Result<(), String> {
    let store = session.store.clone();
    for length in LENGTHS {
        session.store.resize(length, 0x5a);
        session
            .is_turned_away(rest, random.below(2) == 0, random.below(60))
            .map_err(|error| format!("{length}: {error}"))?;
    }
    session.store = store;
    Ok(())
}

/// Some bytes take another value: of three times one among the words, one among the numbers.
fn damage_bytes(session: &mut Session, random: &mut Random) {
    let bytes = bytes_mut(&mut session.record);
    for _ in 0..1 + random.below(4) {
        let within = [bytes.len(), NUMBERS, WORDS * size_of::<i32>()][random.below(3)];
        let place = random.below(within);
        bytes[place] = match random.below(4) {
            0 => random.below(256) as u8,
            1 => bytes[place].wrapping_add(1),
            2 => bytes[place].wrapping_sub(1),
            _ => bytes[place] ^ (1 << random.below(8)),
        };
    }
}

fn damage(session: &mut Session, random: &mut Random) {
    if random.below(5) == 0 {
        let (place, word) = BROKEN[random.below(BROKEN.len())];
        session.record.words[place] = word;
    } else {
        damage_bytes(session, random);
    }
    if random.below(4) == 0 {
        let place = random.below(STORE_LENGTH);
        session.store[place] = random.below(256) as u8;
    }
}

fn damaged(session: &mut Session, rest: &[u8], random: &mut Random, seen: &mut Seen) -> Result<(), String> {
    claim(!breaks(&session.record.words), "a record that a call handed back breaks a limit")?;
    damage(session, random);
    let broken = breaks(&session.record.words);
    seen.broken += u64::from(broken);
    let mut at = 0;
    for turn in 0..CALLS {
        let end = rest.len().min(at + random.below(60));
        let (last, room) = (end == rest.len(), random.below(200));
        let (record, store) = (session.record.clone(), session.store.clone());
        let answer = session.call(&rest[at..end], last, room)?;
        if answer == REFUSED_1 {
            seen.turned_away += u64::from(turn == 0);
            session.is_as_before(&record, &store)?;
            return claim(turn == 0, "a record that a call handed back is turned away");
        }
        claim(!broken, "a record that breaks a limit is not turned away")?;
        at += answer.taken;
        if is_closed(answer.ending) {
            return Ok(());
        }
    }
    Ok(())
}

#[cfg(test)]
mod tests {
    use super::*;

    #[test]
    fn each_broken_word_is_judged_broken() {
        // The words of a record that begins, by the header's order.
        let mut words = [0; WORDS];
        (words[0], words[1], words[6]) = (65, 65, 66);
        assert!(!breaks(&words));
        for (place, word) in BROKEN {
            let mut damaged = words;
            damaged[place] = word;
            assert!(breaks(&damaged), "word {place} = {word}");
        }
    }
}
