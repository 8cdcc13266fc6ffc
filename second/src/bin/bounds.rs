//! Writes vectors for both sides of each bound of document 01. The pages are put together here from the rules by hand;
//! nothing is formatted. `bounds small` is what tests/vectors/bounds.jsonl holds; `bounds large` has the documents of
//! refusal 12, which are too long to be kept. `bounds runs` has the documents of both, without their pages, in the short
//! form of `second::run`: it is what crates/bounds_main reads.

use std::io::{self, BufWriter, Write};
use std::process::ExitCode;

use second::json::{quoted, to_hex};
use second::run::written;

/// A document with its pages and its closing answer; no refusal is done.
struct Bound {
    name: String,
    document: String,
    pages: String,
    refusal: Option<(u8, u32)>,
}

struct Bounds(Vec<Bound>);

impl Bounds {
    fn passes(&mut self, name: &str, document: String, pages: String) {
        self.0.push(Bound { name: name.to_string(), document, pages, refusal: None });
    }

    /// A refusal before anything is written.
    fn refuses(&mut self, name: &str, document: String, number: u8, line: u32) {
        self.refuses_after(name, document, String::new(), number, line);
    }

    fn refuses_after(&mut self, name: &str, document: String, pages: String, number: u8, line: u32) {
        self.0.push(Bound { name: name.to_string(), document, pages, refusal: Some((number, line)) });
    }

    /// All but refusal 12.
    fn small(&mut self) {
        self.lines();
        self.strings();
        self.numbers();
        self.ranges();
        self.stack();
        self.tables();
    }

    /// Refusals 2 and 3: bytes and lengths of source lines and expanded lines.
    fn lines(&mut self) {
        let x = |count: usize| "x".repeat(count);
        let page = |text: String| format!(".pl 1\n{text}");
        self.passes("source line of 512", page(x(512) + "\n"), x(512) + "\n");
        self.passes("source line of 512, no newline", page(x(512)), x(512) + "\n");
        self.refuses("source line of 513", page(x(513) + "\n"), 3, 2);
        self.refuses("source byte 513 bad", page(x(512) + "\t"), 3, 2);
        self.refuses("source byte 512 bad", page(x(511) + "\t"), 2, 2);
        self.refuses("ignored source line of 513", page(format!(".{}\n", x(512))), 3, 2);
        self.passes("ignored source line of 512", page(format!(".{}\n", x(511))), String::new());
        self.passes("byte 32", page("a b\n".to_string()), "a b\n".to_string());
        self.refuses("byte 31", page("a\u{1f}b\n".to_string()), 2, 2);
        self.passes("byte 126", page("a~b\n".to_string()), "a~b\n".to_string());
        self.refuses("byte 127", page("a\u{7f}b\n".to_string()), 2, 2);
        self.refuses("byte 0", page("\0".to_string()), 2, 2);

        // The string s has 200 bytes; a line names it twice and has bytes of its own.
        let with_string = |line: String| format!(".pl 1\n.ds s {}\n{line}\n", x(200));
        self.passes("text line expands to 512", with_string(format!("\\*s\\*s{}", x(112))), x(512) + "\n");
        self.refuses("text line expands to 513", with_string(format!("\\*s\\*s{}", x(113))), 3, 3);
        self.passes(
            "control line expands to 512",
            with_string(format!(".nr a 7 1 \\*s\\*s{}\n\\na", x(102))),
            "7\n".to_string(),
        );
        self.refuses("control line expands to 513", with_string(format!(".nr a 7 1 \\*s\\*s{}\n\\na", x(103))), 3, 3);
        self.passes("ds line expands to 512", with_string(format!(".ds t \\*s\\*s{}\n\\*t", x(106))), x(506) + "\n");
        self.refuses("ds line expands to 513", with_string(format!(".ds t \\*s\\*s{}\n\\*t", x(107))), 3, 3);
        self.passes(
            "body line expands to 512",
            with_string(format!(".de m\n\\*s\\*s{}\n..\n.m", x(112))),
            x(512) + "\n",
        );
        self.refuses("body line expands to 513", with_string(format!(".de m\n\\*s\\*s{}\n..\n.m", x(113))), 3, 4);
        // The line length of 65 cells is 1560 units.
        self.passes("a register fills byte 512", with_string(format!("\\*s\\*s{}\\n(.l", x(108))), x(508) + "1560\n");
        self.refuses("a register passes byte 512", with_string(format!("\\*s\\*s{}\\n(.l", x(109))), 3, 3);
        let called = |count: usize| format!(".pl 1\n.de m\n\\\\$1{}\n..\n.m {}\n", x(212), x(count));
        self.passes("an argument fills byte 512", called(300), x(512) + "\n");
        self.refuses("an argument passes byte 512", called(301), 3, 5);
    }

    /// Refusal 4: strings nested and bytes scanned.
    fn strings(&mut self) {
        // String 1 names string 2 and so on; the last is given whole.
        let chain = |count: u8, last: &str, line: &str| {
            let names: String = (1..count).map(|name| format!(".ds {name} \\\\*{}\n", name + 1)).collect();
            format!(".pl 1\n{names}.ds {count} {last}\n{line}\n")
        };
        self.passes("strings 8 deep", chain(8, "x", "\\*1"), "x\n".to_string());
        self.refuses("strings 9 deep", chain(9, "x", "\\*1"), 4, 11);
        self.refuses("the 9th string empty", chain(9, "", "\\*1"), 4, 11);
        self.passes("an undefined string 9 deep", chain(8, "x\\\\*9", "\\*1"), "x\n".to_string());
        self.passes("strings 8 deep in copy mode", chain(8, "x", ".ds s \\*1\n\\*s"), "x\n".to_string());
        self.refuses("strings 9 deep in copy mode", chain(9, "x", ".ds s \\*1\n\\*s"), 4, 11);
        self.refuses("a macro named 9 deep", format!(".de 9\n..\n{}", chain(8, "x\\\\*9", "\\*1")), 9, 12);

        // The string s has 360 bytes that expand to nothing: 363 bytes scanned each time, 22 times 7,986.
        let scanned = |own: usize| {
            let line = format!("{}{}", "\\*s".repeat(22), "x".repeat(own));
            format!(".pl 1\n.ds s {}\n{line}\n", "\\\\*z".repeat(120))
        };
        self.passes("8,192 bytes scanned", scanned(206), "x".repeat(206) + "\n");
        self.refuses("8,193 bytes scanned", scanned(207), 4, 3);

        // An escape is read whole before it acts. In copy mode `\q` stays: here its backslash would be expanded byte 513,
        // and its q is byte 8,192 or 8,193 scanned. Two strings u of 200 bytes, 106 bytes of its own and the `.ds t `
        // make 512 bytes expanded and 518 scanned; 21 strings s make 7,623 scanned; the rest are undefined strings.
        let kept = |few: usize, long: usize| {
            let strings = format!(".ds s {}\n.ds u {}\n", "\\\\*z".repeat(120), "x".repeat(200));
            let empty = format!("{}{}{}", "\\*s".repeat(21), "\\*z".repeat(few), "\\*(zz".repeat(long));
            format!(".pl 1\n{strings}.ds t \\*u\\*u{}{empty}\\q\n", "x".repeat(106))
        };
        self.refuses("an escape cut by 8,192 bytes scanned", kept(15, 1), 4, 4);
        self.refuses("an escape past 512 bytes expanded", kept(13, 2), 3, 4);
    }

    /// Refusal 6: sizes of numbers, and parentheses.
    fn numbers(&mut self) {
        let shown = |settings: &str| format!(".pl 1\n{settings}\\na\n");
        let large = "1000000000\n".to_string();
        for (name, value) in [
            ("literal 1,000,000,000", "1000000000"),
            ("result 1,000,000,000", "999999999+1"),
            ("scaled literal 1,000,000,000", "300000000p"),
            ("product 1,000,000,000", "31250*32000"),
        ] {
            self.passes(name, shown(&format!(".nr a {value}\n")), large.clone());
        }
        for (name, value) in [
            ("literal 1,000,000,001", "1000000001"),
            ("result 1,000,000,001", "999999999+2"),
            ("scaled literal past the limit", "300000001p"),
            ("product past the limit", "31250*32001"),
            ("result -1,000,000,001", "0-1000000000-1"),
            ("literal of twenty digits", "10000000000000000000"),
        ] {
            self.refuses(name, shown(&format!(".nr a {value}\n")), 6, 2);
        }
        self.passes("result -1,000,000,000", shown(".nr a 0-1000000000\n"), "-1000000000\n".to_string());
        self.passes("sum 1,000,000,000", shown(".nr a 999999999\n.nr a +1\n"), large.clone());
        self.refuses("sum 1,000,000,001", shown(".nr a 1000000000\n.nr a +1\n"), 6, 3);
        self.passes("step to 1,000,000,000", ".pl 1\n.nr a 999999999 1\n\\n+a\n".to_string(), large);
        self.refuses("step to 1,000,000,001", ".pl 1\n.nr a 1000000000 1\n\\n+a\n".to_string(), 6, 3);
        let negative = ".nr a 0-999999999 1\n\\n-a";
        self.passes("step to -1,000,000,000", format!(".pl 1\n{negative}\n"), "-1000000000\n".to_string());
        self.refuses("step to -1,000,000,001", format!(".pl 1\n{negative}\\n-a\n"), 6, 3);
        let deep = |depth: usize| format!(".nr a {}5{}\n", "(".repeat(depth), ")".repeat(depth));
        self.passes("parentheses 8 deep", shown(&deep(8)), "5\n".to_string());
        self.refuses("parentheses 9 deep", shown(&deep(9)), 6, 2);
        let twice = format!(".nr a {}5{}*{}2{}\n", "(".repeat(8), ")".repeat(8), "(".repeat(8), ")".repeat(8));
        self.passes("parentheses 8 deep twice", shown(&twice), "10\n".to_string());
    }

    /// Refusal 7: ranges of settings, and names of three bytes.
    fn ranges(&mut self) {
        for (request, register, least, most) in [("ll", "(.l", 1, 240), ("in", "(.i", 0, 239)] {
            for value in [least, most] {
                let document =
                    format!(".pl 1\n.{request} {value}\n.in 0\n.{request} {value}\n.nr a \\n{register}\n'in 0\n\\na\n");
                // ll and in are in cells of 24 units. The second setting shows that the range holds for both values kept.
                self.passes(&format!("{request} {value}"), document, format!("{}\n", value * 24));
            }
            for value in [least - 1, most + 1] {
                self.refuses(&format!("{request} {value}"), format!(".pl 1\n.{request} (0+{value})\n"), 7, 2);
                let changed = format!(".pl 1\n.{request} {least}\n.{request} {:+}\n", value - least);
                self.refuses(&format!("{request} changed to {value}"), changed, 7, 3);
            }
        }
        for value in [0, 120] {
            let pages = format!("{}x\n", " ".repeat(value));
            self.passes(&format!("po {value}"), format!(".pl 1\n.po {value}\nx\n"), pages);
        }
        self.refuses("po -1", ".pl 1\n.po -1\n".to_string(), 7, 2);
        self.refuses("po 121", ".pl 1\n.po 121\n".to_string(), 7, 2);
        for value in [0, 239] {
            let pages = format!("{}x\n", " ".repeat(value));
            self.passes(&format!("ti {value}"), format!(".pl 1\n.ti {value}\nx\n"), pages);
        }
        self.refuses("ti -1", ".pl 1\n.ti -1\n".to_string(), 7, 2);
        self.refuses("ti 240", ".pl 1\n.ti 240\n".to_string(), 7, 2);
        self.passes("ti total 239", ".pl 1\n.in 200\n.ti +39\nx\n".to_string(), format!("{}x\n", " ".repeat(239)));
        self.refuses("ti total 240", ".pl 1\n.in 200\n.ti +40\nx\n".to_string(), 7, 3);
        for value in [1, 500] {
            let pages = format!("x\n{}", "\n".repeat(value - 1));
            self.passes(&format!("pl {value}"), format!(".pl {value}\nx\n"), pages);
        }
        self.refuses("pl 0", ".pl 0\n".to_string(), 7, 1);
        self.refuses("pl 501", ".pl 501\n".to_string(), 7, 1);
        let used = |length: usize| format!(".pl 5\n.nf\na\nb\n.pl {length}\n");
        self.passes("pl above the 2 rows used", used(3), "a\nb\n\n".to_string());
        self.refuses_after("pl of the 2 rows used", used(2), "a\nb\n".to_string(), 7, 5);
        for line in [".nr ab 1", ".ds ab x", ".rm ab", ".wh 1 ab"] {
            self.passes(&format!("{line}: a name of two bytes"), format!("{line}\n"), String::new());
            self.refuses(&format!("{line}: a name of three bytes"), format!("{}\n", line.replace("ab", "abc")), 7, 1);
        }
        self.passes(".de ab: a name of two bytes", ".de ab\n..\n".to_string(), String::new());
        self.refuses(".de abc: a name of three bytes", ".de abc\n..\n".to_string(), 7, 1);
    }

    /// Refusal 10: the input stack and the stored lines.
    fn stack(&mut self) {
        // Macros A, B, .. each call the next; the last has a line of its own.
        let chain = |count: u8, last: &str| {
            let name = |index: u8| (b'A' + index) as char;
            let calls: String =
                (0..count - 1).map(|index| format!(".de {}\n.{}\n..\n", name(index), name(index + 1))).collect();
            format!("{calls}.de {}\n{last}\n..\n", name(count - 1))
        };
        self.passes("16 texts on the stack", format!(".pl 1\n{}.A\n", chain(16, "x")), "x\n".to_string());
        self.refuses("17 texts on the stack", format!(".pl 1\n{}.A\n", chain(17, "x")), 10, 53);
        // Rows of 3 cells: the row `aaa` reaches the trap at row 1 while `ccc` is left, so the line is held.
        let held = |count: u8| {
            let trap = ".de t\n'br\n..\n.wh 1 t\n";
            format!(".pl 3\n.ll 3\n{trap}{}.A\n", chain(count, "aaa bbb ccc"))
        };
        self.passes("a held line is item 15, its trap's text 16", held(14), "aaa\nbbb\nccc\n".to_string());
        self.refuses_after("a trap's text is item 17", held(15), "aaa\n".to_string(), 10, 52);
        self.refuses_after("a held line is item 17", held(16), "aaa\n".to_string(), 10, 55);

        // A has `calls` lines that call B, and `more` ignored ones; B has 99 ignored lines: 100 lines for each call.
        let lines = |calls: usize, more: usize| {
            let bodies = format!("{}..\n.de A\n{}{}..\n", ".z\n".repeat(99), ".B\n".repeat(calls), ".z\n".repeat(more));
            format!(".pl 2\n.de B\n{bodies}")
        };
        self.passes("10,000 stored lines", format!("{}.A\n.A\nx\n", lines(100, 0)), "x\n\n".to_string());
        self.refuses("10,001 stored lines", format!("{}.A\n", lines(100, 1)), 10, 206);
        // The end counts with the last source line: its trap at row 1 reads one line more.
        let ended = |more: usize| format!("{}.de t\n.z\n..\n.wh 1 t\nx\n.A\n", lines(99, more));
        self.passes("10,000 stored lines with the end's", ended(99), "x\n\n".to_string());
        self.refuses_after("10,001 stored lines with the end's", ended(100), "x\n".to_string(), 10, 309);
    }

    /// Refusal 11: registers, names, traps, live text; and the ninth argument.
    fn tables(&mut self) {
        let name = |index: usize| format!("{}{}", (b'a' + (index / 10) as u8) as char, index % 10);
        let registers =
            |count: usize| (0..count).map(|index| format!(".nr {} {index}\n", name(index))).collect::<String>();
        self.passes("64 registers", format!(".pl 1\n{}\\n(g3\n", registers(64)), "63\n".to_string());
        self.refuses("65 registers", format!(".pl 1\n{}", registers(65)), 11, 66);
        self.passes(
            "64 registers, one set again",
            format!(".pl 1\n{}.nr a0 5\n\\n(a0\n", registers(64)),
            "5\n".to_string(),
        );
        let strings =
            |count: usize| (0..count).map(|index| format!(".ds {} {index}\n", name(index))).collect::<String>();
        self.passes("64 names", format!(".pl 1\n{}\\*(g3\n", strings(64)), "63\n".to_string());
        self.refuses("65 names by ds", format!(".pl 1\n{}", strings(65)), 11, 66);
        self.refuses("65 names by de", format!(".pl 1\n{}.de x\n", strings(64)), 11, 66);
        self.passes(
            "64 names, one made a macro",
            format!(".pl 1\n{}.de a0\nx\n..\n.a0\n", strings(64)),
            "x\n".to_string(),
        );
        self.passes(
            "64 names, one removed, one more",
            format!(".pl 1\n{}.rm a0\n.ds x y\n\\*x\n", strings(64)),
            "y\n".to_string(),
        );
        let traps = |count: usize| (0..count).map(|row| format!(".wh {row} x\n")).collect::<String>();
        self.passes("16 traps", traps(16), String::new());
        self.refuses("17 traps", traps(17), 11, 17);
        self.passes("16 traps, one replaced", format!("{}.wh 15 y\n", traps(16)), String::new());
        self.passes("16 traps, one removed, one more", format!("{}.wh 15\n.wh 16 x\n", traps(16)), String::new());

        // 16 strings of 500 bytes leave 192.
        let full = (0..16).map(|index| format!(".ds {} {}\n", name(index), "x".repeat(500))).collect::<String>();
        let filled = |count: usize| format!(".pl 1\n{full}.ds z {}\n", "y".repeat(count));
        let shown = "y".repeat(192) + "\n";
        self.passes("8,192 bytes of strings", format!("{}\\*z\n", filled(192)), shown.clone());
        self.refuses("8,193 bytes of strings", filled(193), 11, 18);
        self.passes(
            "8,192 bytes, one string redefined",
            format!("{}.ds a0 {}\n\\*z\n", filled(192), "z".repeat(500)),
            shown,
        );
        self.refuses("8,192 bytes, one string longer", format!("{}.ds a0 {}\n", filled(192), "z".repeat(501)), 11, 19);
        let body = |count: usize| format!(".pl 1\n{full}.de z\n{}\n..\n.z\n", "y".repeat(count));
        self.passes("8,192 bytes with a macro line", body(191), "y".repeat(191) + "\n");
        self.refuses("8,193 bytes with a macro line", body(192), 11, 19);
        self.passes("8,192 bytes, an empty macro more", format!("{}.de e\n..\n.e\n", filled(192)), String::new());

        let called = ".pl 1\n.de m\n\\\\$9\n..\n.m a b c d e f g h ";
        self.passes("nine arguments", format!("{called}i\n"), "i\n".to_string());
        self.passes("ten arguments", format!("{called}i j\n"), "i\n".to_string());
        self.refuses("the tenth argument", ".pl 1\n.de m\n\\\\$0\n..\n.m a\n".to_string(), 5, 5);
    }

    /// Refusal 12: a million source lines, a million pages.
    fn large(&mut self) {
        let ignored = |count: usize| ".\n".repeat(count);
        self.passes("1,000,000 source lines", ignored(1_000_000), String::new());
        self.passes("1,000,000 source lines, the last not ended", ignored(999_999) + ".", String::new());
        self.refuses("1,000,001 source lines", ignored(1_000_000) + ".\n", 12, 1_000_001);
        self.refuses("a newline on line 1,000,001", ignored(1_000_000) + "\n", 12, 1_000_001);
        self.refuses("a bad byte on line 1,000,001", ignored(1_000_000) + "\t", 12, 1_000_001);
        // On pages of one row each sp starts the next page; A starts 100. Its lines start at source line 104.
        let macro_of_100 = format!(".pl 1\n.de A\n{}..\n", ".sp\n".repeat(100));
        let paged = |single: usize| format!("{macro_of_100}{}{}", ".A\n".repeat(9_999), ".sp\n".repeat(single));
        self.passes("1,000,000 pages", paged(99), "\n".repeat(999_999));
        self.refuses_after("1,000,001 pages", paged(100), "\n".repeat(1_000_000), 12, 10_202);
        self.passes("the end on page 1,000,000", paged(99) + "x\n", "\n".repeat(999_999) + "x\n");
    }
}

/// The documents, each on a line below its name.
fn write_runs(bounds: &Bounds) -> io::Result<()> {
    let mut out = BufWriter::new(io::stdout().lock());
    for Bound { name, document, .. } in &bounds.0 {
        writeln!(out, "# {name}\n{}", written(document.as_bytes()))?;
    }
    out.flush()
}

fn write_vectors(bounds: &Bounds) -> io::Result<()> {
    let mut out = BufWriter::new(io::stdout().lock());
    for Bound { name, document, pages, refusal } in &bounds.0 {
        let mut text = format!("{{\"name\": {}, \"doc\": \"", quoted(name));
        to_hex(document.as_bytes(), &mut text);
        text.push_str("\", \"out\": \"");
        to_hex(pages.as_bytes(), &mut text);
        match refusal {
            None => text.push_str("\", \"end\": \"done\"}"),
            Some((number, line)) => text.push_str(&format!("\", \"end\": [{number}, {line}]}}")),
        }
        writeln!(out, "{text}")?;
    }
    out.flush()
}

fn main() -> ExitCode {
    let mut bounds = Bounds(Vec::new());
    let words: Vec<_> = std::env::args_os().skip(1).collect();
    let write = match words.first().and_then(|word| word.to_str()) {
        Some("small") if words.len() == 1 => {
            bounds.small();
            write_vectors
        }
        Some("large") if words.len() == 1 => {
            bounds.large();
            write_vectors
        }
        Some("runs") if words.len() == 1 => {
            bounds.small();
            bounds.large();
            write_runs
        }
        _ => {
            eprintln!("bounds: usage: bounds small | bounds large | bounds runs");
            return ExitCode::from(2);
        }
    };
    match write(&bounds) {
        Ok(()) => ExitCode::SUCCESS,
        Err(error) => {
            let _ = writeln!(io::stderr(), "bounds: {error}");
            ExitCode::from(2)
        }
    }
}
