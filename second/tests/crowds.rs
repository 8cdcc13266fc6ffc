//! Documents that lean on bounds meet them: on both sides, and the same in calls as whole.

use second::crowd::crowded;
use second::generate::Random;
use second::refusal::STORE_LENGTH;
use second::session::{pages, Ending};
use second::state::State;

const DOCUMENTS: u64 = 4_000;
const SEED: u64 = 2027;

/// The pages and the closing answer in random blocks and rooms.
fn in_calls(document: &[u8], random: &mut Random) -> (Vec<u8>, Ending) {
    let (mut state, mut out, mut at) = (State::new(), Vec::new(), 0);
    loop {
        let end = document.len().min(at + random.below(300));
        let answer = state.call(STORE_LENGTH, &document[at..end], end == document.len(), random.below(300), &mut out);
        at += answer.taken;
        if matches!(answer.ending, Ending::Done | Ending::Refused { .. }) {
            return (out, answer.ending);
        }
    }
}

#[test]
fn crowds_meet_the_bounds() {
    let (mut random, mut endings, mut longest) = (Random::new(SEED), [0u64; 13], 0);
    for index in 0..DOCUMENTS {
        let document = crowded(SEED, index);
        let (out, end) = pages(&document);
        assert_eq!(in_calls(&document, &mut random), (out.clone(), end), "document {index}");
        longest = longest.max(out.split(|&byte| byte == b'\n').map(<[u8]>::len).max().unwrap_or(0));
        let number = if let Ending::Refused { number, .. } = end { number } else { 0 };
        endings[usize::from(number)] += 1;
    }
    assert!(endings[0] > DOCUMENTS / 5, "{endings:?}");
    for number in [3, 4, 6, 7, 9, 10, 11] {
        assert!(endings[number] > DOCUMENTS / 200, "refusal {number}: {endings:?}");
    }
    // "po, indent, text": 120 + 239 + 512 is the most.
    assert!(longest > 860, "{longest}");
}
