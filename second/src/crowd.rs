//! Random documents that lean on bounds: full tables, a full store, deep stacks and strings, long lines and wide rows,
//! each a little below or above what document 01 allows, and what goes on around them.

use crate::generate::{line, Random};

/// What one part of a document crowds.
const CROWDS: [fn(&mut Random) -> String; 14] = [
    registers,
    names,
    traps,
    long_lines,
    long_expansions,
    nested_strings,
    scanned_bytes,
    full_store,
    deep_stack,
    stored_lines,
    deep_numbers,
    wide_rows,
    ranges,
    arguments,
];

/// The document of this seed and index.
pub fn crowded(seed: u64, index: u64) -> Vec<u8> {
    let mut random = Random::new(seed.wrapping_mul(0x1000_0000_01b3) ^ index.wrapping_mul(0x9e37_79b9) ^ 0xc04d);
    let mut text = format!(".pl {}\n", 1 + random.below(30));
    for _ in 0..1 + random.below(3) {
        text.push_str(&CROWDS[random.below(CROWDS.len())](&mut random));
        for _ in 0..random.below(4) {
            text.push_str(&line(&mut random, 0));
            text.push('\n');
        }
    }
    if random.one_in(4) {
        text.pop();
    }
    text.into_bytes()
}

/// A count a little below, at or above a bound.
fn around(random: &mut Random, bound: usize) -> usize {
    bound - 2 + random.below(4)
}

/// The name of two letters with this number.
fn name(number: usize) -> String {
    let letter = |number: usize| (b'A' + (number % 26) as u8) as char;
    format!("{}{}", letter(number / 26), letter(number))
}

/// One word or many of so many bytes in all.
fn run_of(random: &mut Random, bytes: usize) -> String {
    if random.one_in(3) {
        return "w".repeat(bytes);
    }
    let mut text = String::new();
    while text.len() < bytes {
        text.push_str(random.pick(&["lamp ", "of ", "a ", "cover.  ", "x", "verylongwordindeed "]));
    }
    text.truncate(bytes);
    text
}

fn registers(random: &mut Random) -> String {
    let mut text = String::new();
    for number in 0..around(random, 64) {
        text.push_str(&format!(".nr {} {number} 1\n", name(number)));
    }
    text + "\\n(AA \\n+(BB \\n(CL\n.nr AA +1\n"
}

fn names(random: &mut Random) -> String {
    let mut text = String::new();
    for number in 0..around(random, 64) {
        let name = name(number);
        match random.below(3) {
            0 => text.push_str(&format!(".de {name}\nmacro {number}\n..\n")),
            1 => text.push_str(&format!(".ds {name}\n")),
            _ => text.push_str(&format!(".ds {name} string {number}\n")),
        }
        if random.one_in(12) {
            text.push_str(&format!(".rm {}\n", self::name(random.below(number + 1))));
        }
    }
    text + "\\*(AB \\*(BC\n.AC\n.CJ\n"
}

fn traps(random: &mut Random) -> String {
    let mut text = String::from(".de T\n\\\\n%: \\\\n(nl\n..\n");
    for number in 0..around(random, 16) {
        let row = if random.one_in(4) { format!("-{}", number + 1) } else { number.to_string() };
        text.push_str(&format!(".wh {row} {}\n", random.pick(&["T", "T", "b", "zz"])));
    }
    text + ".wh 3\nOne line.\n.sp 2\nAnother line.\n.bp\nThe last line.\n"
}

fn long_lines(random: &mut Random) -> String {
    let bytes = around(random, 512);
    let control = random.pick(&["", "", ".nf\n", ".ce 2\n", ".na\n"]);
    let start = random.pick(&["", ".ds a ", ".zz ", ".a "]);
    let rest = run_of(random, bytes - start.len());
    format!("{control}{start}{rest}\n\\*a\n")
}

/// A line that a string brings to about 512 bytes, as text or as arguments.
fn long_expansions(random: &mut Random) -> String {
    let (held, more) = (480 + random.below(20), around(random, 512));
    let (string, rest) = (run_of(random, held), run_of(random, more - held));
    let start = random.pick(&["", ".b ", ".ds b ", ".if n "]);
    let more = rest.get(start.len().min(rest.len())..).unwrap_or("");
    format!(".de b\n[\\\\$1 \\\\$2]\n..\n.ds a {string}\n{start}\\*a{more}\n\\*b\n")
}

fn nested_strings(random: &mut Random) -> String {
    let depth = around(random, 8);
    let mut text = String::from(".ds AA core\n");
    for number in 1..depth {
        text.push_str(&format!(".ds {} <\\\\*({}>\n", name(number), name(number - 1)));
    }
    let control = random.pick(&["", ".nr x \\n+x\n", ".ds a "]);
    format!("{text}{control}\\*({} \\*({}\n", name(depth.saturating_sub(1)), name(depth / 2))
}

/// Strings that give nothing, scanned again and again.
fn scanned_bytes(random: &mut Random) -> String {
    let empty = "\\\\*e".repeat(100 + random.below(3));
    let times = 26 + random.below(3);
    format!(".ds e\n.ds l {empty}\n{}x\n{}y\n", "\\*l".repeat(times), "\\*l".repeat(3))
}

/// Texts that fill the store, then some that are redefined, removed or made longer.
fn full_store(random: &mut Random) -> String {
    let mut text = String::new();
    for number in 0..16 {
        let bytes = if number < 15 { 500 } else { around(random, 692).min(505) };
        let body = run_of(random, bytes).replace('\\', "e");
        text.push_str(&format!(".ds {} {body}\n", name(number)));
    }
    for _ in 0..3 + random.below(8) {
        let name = name(random.below(18));
        let bytes = [0, 1, 100, 190, 192, 193, 400][random.below(7)];
        let body = run_of(random, bytes);
        match random.below(4) {
            0 => text.push_str(&format!(".rm {name}\n")),
            1 => text.push_str(&format!(".de {name}\n{body}\n..\n.{name}\n")),
            _ => text.push_str(&format!(".ds {name} {body}\n")),
        }
    }
    text + "\\*(AB\n\\*(AK\n"
}

/// Macros that call each other, the last with a break, so that a trap may spring on top of them.
fn deep_stack(random: &mut Random) -> String {
    let depth = around(random, 16);
    let last = random.pick(&["text", ".br", ".sp", ".bp", " text", "a b c d e f g h i", ".in 1", ".ti 2"]);
    let mut text = format!(".de T\ntop \\\\n%\n.br\n..\n.wh {} T\n.de AA\n{last}\n..\n", random.below(4));
    for number in 1..depth {
        let after = random.pick(&["", "after\n", ".br\n"]);
        text.push_str(&format!(".de {}\n.{} \\\\$1 \\\\$2\n{after}..\n", name(number), name(number - 1)));
    }
    format!("{text}.ll {}\nsome words before\n.{} one \"two three\"\n", 5 + random.below(20), name(depth - 1))
}

/// About 10,000 stored lines for one source line.
fn stored_lines(random: &mut Random) -> String {
    let mut text = String::new();
    let inner = [9, 9, 8, 3][random.below(4)];
    for (macro_name, called, lines) in [("A", ".B", 10), ("B", ".C", 10), ("C", ".D", 10), ("D", ".nr x +1", inner)] {
        text.push_str(&format!(".de {macro_name}\n{}..\n", format!("{called}\n").repeat(lines)));
    }
    let also = random.pick(&["", "\\nx", ".br"]);
    format!("{text}.A\n{also}\n\\nx\n")
}

fn deep_numbers(random: &mut Random) -> String {
    let depth = around(random, 8);
    let inner = random.pick(&["1", "-7/2", "999999999", "1000000000", "40i", "3p"]);
    let nested = format!("{}{inner}{}", "(".repeat(depth), ")".repeat(depth));
    let operator = random.pick(&["+1", "*2", "-1", "/0", "%7", "*1000000000", "&1", ">=3", ""]);
    let name = random.pick(&["nr x", "nr x +", "nr x -", "sp", "in", "if"]);
    format!(".{name} {nested}{operator} 5\n\\nx \\n+x \\n-x\n")
}

/// Rows as long as they come: offset, indent and one word.
fn wide_rows(random: &mut Random) -> String {
    let settings = format!(".po {}\n.ll 240\n.in {}\n", 118 + random.below(3), 237 + random.below(3));
    let mode = random.pick(&["", ".nf\n", ".ce 9\n", ".ti 239\n", ".na\n"]);
    let bytes = 500 + random.below(13);
    format!("{settings}{mode}{}\n{}\n", "w".repeat(bytes), run_of(random, 300))
}

fn ranges(random: &mut Random) -> String {
    const EDGES: [&str; 20] = [
        ".ll 240", ".ll 241", ".ll 1", ".ll 0", ".in 239", ".in 240", ".ti 239", ".ti 240", ".po 120", ".po 121",
        ".pl 500", ".pl 501", ".pl 1", ".ll 5", ".ll", ".in", ".po", ".pl", ".ll +1", ".ti -1",
    ];
    let mut text = String::new();
    for _ in 0..2 + random.below(5) {
        text.push_str(random.pick(&EDGES));
        text.push_str("\nsome words of text\n");
    }
    text
}

fn arguments(random: &mut Random) -> String {
    let mut text = String::from(".de m\n\\\\$1|\\\\$2|\\\\$9|\n.b \\\\$2 \"\\\\$1\"\n..\n.ds b <\\\\$1>\n.m");
    for _ in 0..around(random, 10) {
        text.push_str(random.pick(&[
            " a",
            "  bb",
            " \"c d\"",
            " \"\"",
            " \"e\"\"f\"",
            " \\*b",
            " \\e",
            " \\&",
            " g\\ h",
        ]));
    }
    text + "\n"
}
