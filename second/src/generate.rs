//! Random documents that lean on interactions: traps inside breaks, text modes, macros and strings, redefinition and
//! removal, numbers, and the end of the document.

/// A small generator of pseudo-random numbers (SplitMix64): the same seed gives the same numbers everywhere.
pub struct Random(u64);

impl Random {
    pub fn new(seed: u64) -> Random {
        Random(seed)
    }

    fn next(&mut self) -> u64 {
        self.0 = self.0.wrapping_add(0x9e37_79b9_7f4a_7c15);
        let mut mixed = self.0;
        mixed = (mixed ^ (mixed >> 30)).wrapping_mul(0xbf58_476d_1ce4_e5b9);
        mixed = (mixed ^ (mixed >> 27)).wrapping_mul(0x94d0_49bb_1331_11eb);
        mixed ^ (mixed >> 31)
    }

    /// A number below the bound, which is above 0.
    pub fn below(&mut self, bound: usize) -> usize {
        (self.next() % bound as u64) as usize
    }

    pub(crate) fn one_in(&mut self, chances: usize) -> bool {
        self.below(chances) == 0
    }

    pub(crate) fn pick<'a>(&mut self, choices: &[&'a str]) -> &'a str {
        choices[self.below(choices.len())]
    }
}

const NAMES: [&str; 10] = ["T", "F", "hd", "ft", "a", "b", "m", "sp", "br", "zz"];
const WORDS: [&str; 26] = [
    "a",
    "bb",
    "of",
    "the",
    "end.",
    "ok!",
    "why?",
    "lamp",
    "cover",
    "\\&",
    "x\\ y",
    "\\-",
    "\\e",
    "verylongwordindeed",
    "\\*a",
    "\\*b",
    "\\n+x",
    "\\nx",
    "\\n%",
    "\\n(nl",
    "\\$1",
    "i.e.\\&",
    "\\n(.i",
    "\\*(hd",
    "it",
    "'tis",
];
const NUMBERS: [&str; 18] =
    ["0", "1", "2", "3", "5", "-1", "-2", "+1", "+3", "40u", "-36u", "1i", "2+1", "(1+2)", "7/2", "3>2", "1c", "12"];
const CONDITIONS: [&str; 12] = ["n", "t", "o", "e", "!o", "!n", "\\nx", "\\nx>2", "1", "0", "\\n%=2", "!t"];

/// The document of this seed and index.
pub fn document(seed: u64, index: u64) -> Vec<u8> {
    let mut random = Random::new(seed.wrapping_mul(0x1000_0000_01b3) ^ index.wrapping_mul(0x9e37_79b9));
    let mut text = String::new();
    text.push_str(&format!(".pl {}\n", 1 + random.below(9)));
    text.push_str(&format!(".ll {}\n", 1 + random.below(30)));
    for _ in 0..random.below(4) {
        let definition = definition(&mut random, 0);
        text.push_str(&definition);
    }
    for _ in 0..random.below(4) {
        let name = random.pick(&NAMES);
        text.push_str(&format!(".wh {} {name}\n", random.below(9) as i64 - 4));
    }
    for _ in 0..random.below(14) {
        let line = line(&mut random, 0);
        text.push_str(&line);
        text.push('\n');
    }
    if random.one_in(8) {
        text.pop();
    }
    if random.one_in(60) && !text.is_empty() {
        // A damaged byte.
        let place = random.below(text.len());
        let mut bytes = text.into_bytes();
        bytes[place] = random.below(256) as u8;
        return bytes;
    }
    text.into_bytes()
}

/// A macro or string, its escapes delayed so that they act when it is read.
fn definition(random: &mut Random, depth: usize) -> String {
    let name = random.pick(&NAMES);
    if random.one_in(3) {
        let words = words(random);
        return format!(".ds {name} {}\n", delayed(random, &words));
    }
    let mut text = format!(".de {name}\n");
    for _ in 0..random.below(5) {
        let line = line(random, depth + 1);
        text.push_str(&delayed(random, &line));
        text.push('\n');
    }
    if !random.one_in(40) {
        text.push_str("..\n");
    }
    text
}

fn delayed(random: &mut Random, text: &str) -> String {
    if random.one_in(4) {
        text.to_string()
    } else {
        text.replace('\\', "\\\\")
    }
}

fn words(random: &mut Random) -> String {
    let mut text = " ".repeat(if random.one_in(8) { random.below(4) } else { 0 });
    for _ in 0..1 + random.below(8) {
        text.push_str(random.pick(&WORDS));
        text.push_str(&" ".repeat(if random.one_in(6) { 1 + random.below(3) } else { 1 }));
    }
    if !random.one_in(6) {
        text.truncate(text.trim_end_matches(' ').len());
    }
    text
}

/// A line of text, or a control line.
pub(crate) fn line(random: &mut Random, depth: usize) -> String {
    let control = if random.one_in(6) { "'" } else { "." };
    let number = random.pick(&NUMBERS);
    let name = random.pick(&NAMES);
    match random.below(30) {
        0..=9 => words(random),
        10 => String::new(),
        11 => format!("{control}br"),
        12 => format!("{control}sp {number}"),
        13 => format!("{control}bp"),
        14 => format!("{control}in {number}"),
        15 => format!("{control}ti {number}"),
        16 => format!("{control}ll {number}"),
        17 => format!("{control}{}", random.pick(&["fi", "nf", "nf", "ad", "na"])),
        18 => format!("{control}ce {number}"),
        19 => format!(".nr x {number} {}", random.pick(&NUMBERS)),
        20 => format!(".po {}", random.pick(&["", "1", "2", "+1", "-1", "0"])),
        21 => format!(".pl {}", random.pick(&["", "3", "5", "7", "+1", "-1", "2"])),
        22 => format!(".wh {number} {}", if random.one_in(4) { "" } else { name }),
        23 => format!(".rm {name}"),
        24 if depth < 2 => {
            let text = definition(random, depth);
            // A definition inside one is ended by a delayed pair of periods.
            let text = if depth == 0 { text } else { text.replace("\n..", "\n\\..") };
            text.trim_end_matches('\n').to_string()
        }
        25 | 26 => format!("{control}{name} {}", words(random)),
        27 | 28 if depth < 3 => format!(".if {} {}", random.pick(&CONDITIONS), line(random, depth + 1)),
        29 if random.one_in(6) => random.pick(&["\\q", ".ll 0", ".nr x 5/0", ".pl 501", "\\*", ".nr % 1"]).to_string(),
        _ => words(random),
    }
}
