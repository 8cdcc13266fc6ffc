//! Measures the program against other formatters on the same text of filled words with requests, and the product
//! through its C interface on that text.
//!
//! All of them run in turn on the same text, the pages are thrown away, and the medians of the times are compared.
//! Nothing is asserted of the times. A formatter that is not installed is named and left out.

use std::env;
use std::fs;
use std::hint::black_box;
use std::io;
use std::path::{Path, PathBuf};
use std::process::{Command, Stdio};
use std::time::Instant;

use crate::binding::Record;
use crate::session::session;
use crate::text;

const SIZE: usize = 20_000_000;
const ROUNDS: usize = 5;
/// Blocks of one byte are measured on so many bytes of the text.
const PIECE: usize = 1_000_000;
const TURNS: usize = 15;
const COPIES: usize = 1_000_000;

/// How the text is formatted: by a program that gets its file, or by calls of the C interface.
enum Way<'a> {
    Program(&'a str, &'a [&'a str]),
    Calls { block: usize, room: usize },
}

/// How long a command takes, or nothing if there is no such program.
fn timed(program: &str, words: &[&str], text: &Path) -> Option<f64> {
    let start = Instant::now();
    let status =
        Command::new(program).args(words).arg(text).stdout(Stdio::null()).stderr(Stdio::null()).status().ok()?;
    status.success().then(|| start.elapsed().as_secs_f64())
}

/// How long a session takes, and how many calls it has; nothing if it is refused.
fn timed_session(source: &[u8], block: usize, room: usize) -> Option<(f64, usize)> {
    let start = Instant::now();
    let calls = session(source, block, room)?;
    Some((start.elapsed().as_secs_f64(), calls))
}

fn median(mut values: Vec<f64>) -> f64 {
    values.sort_by(f64::total_cmp);
    values[values.len() / 2]
}

/// All measurements; false if the product or its program does not format the text.
pub fn compare(program: &str) -> io::Result<bool> {
    let file: PathBuf = env::temp_dir().join(format!("rockavine-bench-{}.txt", std::process::id()));
    let source = text::with_requests(SIZE);
    let done = fs::write(&file, &source).map(|()| measure(program, &file, &source));
    let _ = fs::remove_file(&file);
    done
}

fn measure(program: &str, text: &Path, source: &[u8]) -> bool {
    let ways = [
        ("C, whole", Way::Calls { block: source.len(), room: 65_536 }),
        ("C, blocks and rooms of 512", Way::Calls { block: 512, room: 512 }),
        ("rockavine, the program", Way::Program(program, &[])),
        ("GNU nroff", Way::Program("nroff", &[])),
        ("mandoc", Way::Program("mandoc", &["-Tascii"])),
        ("coreutils fmt", Way::Program("fmt", &[])),
    ];
    let mut times: Vec<Vec<f64>> = vec![Vec::new(); ways.len()];
    for _ in 0..ROUNDS {
        for (times, (_, way)) in times.iter_mut().zip(&ways) {
            times.extend(match way {
                Way::Program(program, words) => timed(program, words, text),
                Way::Calls { block, room } => timed_session(source, *block, *room).map(|(time, _)| time),
            });
        }
    }
    let times: Vec<Option<f64>> = times.into_iter().map(|t| (t.len() == ROUNDS).then(|| median(t))).collect();
    let names: Vec<&str> = ways.iter().map(|(name, _)| *name).collect();
    report(&names, &times, source.len()) && one_byte_calls(&source[..PIECE.min(source.len())])
}

/// Prints the times, and each as a multiple of the product's three; false if one of these is missing.
fn report(names: &[&str], times: &[Option<f64>], size: usize) -> bool {
    let [Some(whole), Some(blocks), Some(program)] = times[..3] else {
        println!("the product or its program did not format the text");
        return false;
    };
    println!("{:28} {:>8} {:>8}   as a multiple of the time of:", "", "s", "MB/s");
    println!("{:28} {:>8} {:>8} {:>10} {:>10} {:>10}", "", "", "", "C, whole", "C, 512", "program");
    for (name, time) in names.iter().zip(times) {
        let Some(time) = time else {
            println!("{name:28} not installed, or it failed");
            continue;
        };
        let rate = size as f64 / time / 1e6;
        println!(
            "{name:28} {time:8.3} {rate:8.1} {:10.2} {:10.2} {:10.2}",
            time / whole,
            time / blocks,
            time / program
        );
    }
    true
}

/// The cost of copying a record, in nanoseconds.
fn copied() -> f64 {
    let record = Record::start();
    let mut copy = record.clone();
    let start = Instant::now();
    for _ in 0..COPIES {
        copy.clone_from(black_box(&record));
        black_box(&copy);
    }
    start.elapsed().as_secs_f64() / COPIES as f64 * 1e9
}

/// Calls with blocks of one byte, in turn with copies of a record; false if the text is refused.
fn one_byte_calls(piece: &[u8]) -> bool {
    let (mut calls, mut copies) = (Vec::new(), Vec::new());
    for _ in 0..TURNS {
        let Some((time, count)) = timed_session(piece, 1, 512) else {
            return false;
        };
        calls.push(time / count as f64 * 1e9);
        copies.push(copied());
    }
    let (call, copy) = (median(calls), median(copies));
    println!(
        "C, blocks of 1, rooms of 512: {call:.1} ns a call; copying a record: {copy:.1} ns; ratio {:.2}",
        call / copy
    );
    true
}
