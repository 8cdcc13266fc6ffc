//! The texts that are measured, the same in each run.

const WORDS: [&str; 20] = [
    "cable", "exchange", "pair", "lamp", "cover", "check", "the", "and", "of", "line", "relay", "a", "to", "is", "set",
    "test", "meter", "frame", "block", "fuse",
];
const REQUESTS: [&str; 6] = [".br", ".sp", ".in +2", ".in -2", ".ti +4", ".ad"];
/// The words of the text without requests.
const PLAIN_WORDS: &str = "the a of and to lift cover lamp check then close it press lever until paper stops remove four \
    screws from printer housing before cleaning with dry cloth is in on at controller feeds adjustment line page turn power \
    off";

struct Random(u64);

impl Random {
    fn below(&mut self, bound: usize) -> usize {
        self.0 ^= self.0 << 13;
        self.0 ^= self.0 >> 7;
        self.0 ^= self.0 << 17;
        (self.0 % bound as u64) as usize
    }
}

/// A line of words, one in ten with a period at its end.
fn words(random: &mut Random) -> String {
    let words: Vec<&str> = (0..6 + random.below(7)).map(|_| WORDS[random.below(WORDS.len())]).collect();
    let end = if random.below(10) == 0 { "." } else { "" };
    words.join(" ") + end
}

/// A request; the indent goes to 10 cells and back.
fn request(random: &mut Random, indent: &mut usize) -> String {
    let request = REQUESTS[random.below(REQUESTS.len())];
    match request {
        ".in +2" if *indent == 10 => return ".br".to_string(),
        ".in -2" if *indent == 0 => return ".br".to_string(),
        ".in +2" => *indent += 2,
        ".in -2" => *indent -= 2,
        _ => {}
    }
    request.to_string()
}

/// A line of 4 to 15 words, one in twenty with leading spaces and one in three with a period at its end; one gap in fifty
/// is of two spaces.
fn plain_words(random: &mut Random, words: &[&str]) -> String {
    let mut line = String::new();
    if random.below(20) == 0 {
        line.push_str(&"     "[..1 + random.below(5)]);
    }
    for i in 0..4 + random.below(12) {
        if i > 0 {
            line.push_str(if random.below(50) == 0 { "  " } else { " " });
        }
        line.push_str(words[random.below(words.len())]);
    }
    if random.below(3) == 0 {
        line.push('.');
    }
    line
}

/// At least so many bytes of lines.
fn lines(size: usize, mut line: impl FnMut(&mut Random) -> String) -> Vec<u8> {
    let mut random = Random(0x9e37_79b9_7f4a_7c15);
    let mut text = Vec::with_capacity(size + 512);
    while text.len() < size {
        text.extend(line(&mut random).bytes());
        text.push(b'\n');
    }
    text
}

/// Filled words with a request in one line of forty.
pub fn with_requests(size: usize) -> Vec<u8> {
    let mut indent = 0;
    lines(size, |random| if random.below(40) == 0 { request(random, &mut indent) } else { words(random) })
}

/// Filled words alone.
pub fn plain(size: usize) -> Vec<u8> {
    let words: Vec<&str> = PLAIN_WORDS.split(' ').collect();
    lines(size, |random| plain_words(random, &words))
}
