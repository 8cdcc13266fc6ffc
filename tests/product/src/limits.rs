//! Which words of a record break a limit of docs/RECORD.md for themselves, told without the product.

use crate::product::WORDS;

const LINE: usize = 0;
const INDENT: usize = 2;
const OFFSET: usize = 4;
const PAGE: usize = 6;
const TOTAL: usize = 7;
const CENTRED: usize = 11;
const NUMBER: usize = 12;
const USED: usize = 13;
const COLLECTED: usize = 15;
const DEPTH: usize = 20;
const TEXTS: usize = 21;
const REGISTERS: usize = 22;
const OPENING: usize = 23;
const SOURCE: usize = 26;
const WAITING: usize = 30;
const CLOSING: usize = 32;
const TRAPS: usize = 35;

/// Words that break a limit whatever the others are.
pub const BROKEN: [(usize, i32); 24] = [
    (LINE, 0),
    (LINE, 241),
    (LINE + 1, -1),
    (LINE + 1, i32::MAX),
    (INDENT, 240),
    (INDENT + 1, 240),
    (OFFSET, 121),
    (OFFSET + 1, i32::MAX),
    (PAGE, 0),
    (PAGE, 501),
    (PAGE, i32::MIN),
    (CENTRED, 1_000_000_001),
    (NUMBER, 1_000_001),
    (USED, 500),
    (COLLECTED + 1, 240),
    (COLLECTED + 2, 513),
    (COLLECTED + 3, 513),
    (COLLECTED + 4, 3),
    (DEPTH, 18),
    (TEXTS, 65),
    (REGISTERS, 65),
    (SOURCE, 1_000_002),
    (WAITING + 1, 873),
    (TRAPS, 17),
];

/// A word as a count: none is below 0.
fn count(words: &[i32; WORDS], at: usize) -> u32 {
    words[at].max(0) as u32
}

fn is_past(words: &[i32; WORDS], at: usize, most: u32) -> bool {
    count(words, at) > most
}

fn breaks_layout(words: &[i32; WORDS]) -> bool {
    let line = |at| !(1..=240).contains(&count(words, at));
    let page = count(words, PAGE);
    line(LINE)
        || line(LINE + 1)
        || (INDENT..OFFSET).any(|at| is_past(words, at, 239))
        || (OFFSET..PAGE).any(|at| is_past(words, at, 120))
        || !(1..=500).contains(&page)
        || (words[TOTAL] != 0 && is_past(words, TOTAL + 1, 239))
        || is_past(words, CENTRED, 1_000_000_000)
        || is_past(words, NUMBER, 1_000_000)
        || count(words, USED) >= page
}

fn breaks_tables(words: &[i32; WORDS]) -> bool {
    is_past(words, COLLECTED + 1, 239)
        || is_past(words, COLLECTED + 2, 512)
        || is_past(words, COLLECTED + 3, 512)
        || is_past(words, COLLECTED + 4, 2)
        || is_past(words, DEPTH, 17)
        || is_past(words, TEXTS, 64)
        || is_past(words, REGISTERS, 64)
        || is_past(words, TRAPS, 16)
        || (words[OPENING] != 0 && (is_past(words, TEXTS, 63) || is_past(words, OPENING + 2, 8192)))
}

fn breaks_answer(words: &[i32; WORDS]) -> bool {
    let last = if words[CLOSING] == 0 { 1_000_000 } else { 1_000_001 };
    let refused = !(0..=1).contains(&words[CLOSING]);
    is_past(words, SOURCE, last)
        || is_past(words, SOURCE + 1, 512)
        || is_past(words, SOURCE + 3, 10_000)
        || is_past(words, WAITING + 1, 872)
        || count(words, WAITING) > count(words, WAITING + 1)
        || (refused && !(2..=12).contains(&count(words, CLOSING + 1)))
        || (refused && count(words, CLOSING + 2) != count(words, SOURCE))
}

/// Whether these words are to be refused, whatever the arrays and the store hold.
pub fn breaks(words: &[i32; WORDS]) -> bool {
    breaks_layout(words) || breaks_tables(words) || breaks_answer(words)
}
