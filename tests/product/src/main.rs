//! Runs the proved formatter, as C sees it, and compares.

mod binding;
mod damaged;
mod limits;
mod product;
mod random;
mod session;
mod vectors;

use std::fs;
use std::io::{self, Write};
use std::process::ExitCode;

use second::generate::Random;
use second::vector::Vector;

const USAGE: &str = "usage: product vectors FILE..     run vector files
       product random COUNT SEED  compare random documents with the second formatter
       product damaged COUNT SEED call with damaged records and stores of other lengths";

/// What each command counts.
#[derive(Default)]
struct Counts {
    passed: u64,
    failed: u64,
}

impl Counts {
    fn add(&mut self, what: &str, result: Result<(), String>) {
        let Err(error) = result else {
            self.passed += 1;
            return;
        };
        self.failed += 1;
        println!("{what}: {error}");
    }
}

fn main() -> ExitCode {
    let words: Vec<String> = std::env::args().skip(1).collect();
    let words: Vec<&str> = words.iter().map(String::as_str).collect();
    let result = match words.as_slice() {
        ["vectors", files @ ..] if !files.is_empty() => run_vectors(files),
        ["random", count, seed] => both(count, seed).map(|(count, seed)| run_random(count, seed)),
        ["damaged", count, seed] => both(count, seed).map(|(count, seed)| run_damaged(count, seed)),
        _ => Err(USAGE.to_string()),
    };
    let counts = match result {
        Ok(counts) => counts,
        Err(message) => {
            let _ = writeln!(io::stderr(), "product: {message}");
            return ExitCode::from(2);
        }
    };
    println!("{} passed, {} failed", counts.passed, counts.failed);
    ExitCode::from(u8::from(counts.failed > 0 || counts.passed == 0))
}

fn number(word: &str) -> Result<u64, String> {
    word.parse().map_err(|_| format!("{word}: not a whole number"))
}

fn both(count: &str, seed: &str) -> Result<(u64, u64), String> {
    Ok((number(count)?, number(seed)?))
}

fn run_vectors(files: &[&str]) -> Result<Counts, String> {
    let mut counts = Counts::default();
    for file in files {
        let text = fs::read_to_string(file).map_err(|error| format!("{file}: {error}"))?;
        let before = counts.passed + counts.failed;
        for (index, line) in text.lines().enumerate().filter(|(_, line)| !line.trim().is_empty()) {
            let place = format!("{file}:{}", index + 1);
            let vector = Vector::parse(line).map_err(|error| format!("{place}: {error}"))?;
            counts.add(&format!("{place}: {}", vector.name), vectors::check(&vector));
        }
        // A file without a vector shows nothing, so it is no success.
        if counts.passed + counts.failed == before {
            counts.add(file, Err("no vectors".to_string()));
        }
    }
    Ok(counts)
}

fn run_random(count: u64, seed: u64) -> Counts {
    let (mut counts, mut random) = (Counts::default(), Random::new(seed));
    for index in 0..count {
        let document = random::drawn(seed, index);
        let result = random::check(&document, &mut random);
        counts.add(&format!("document {index}"), result.map_err(|error| shown(&document, error)));
    }
    counts
}

fn run_damaged(count: u64, seed: u64) -> Counts {
    let (mut counts, mut random, mut seen) = (Counts::default(), Random::new(seed), damaged::Seen::default());
    for index in 0..count {
        let result = damaged::check(seed, index, &mut random, &mut seen);
        counts.add(&format!("document {index}"), result);
    }
    println!("version {}: {} of {count} damaged records turned away", product::version(), seen.turned_away);
    println!("{} of them had to be, by their words alone", seen.broken);
    // Damage that is never seen shows nothing.
    if count >= 100 && (seen.turned_away == 0 || seen.broken == 0) {
        counts.add("damage", Err("no record was turned away, or none had to be".to_string()));
    }
    counts
}

fn shown(document: &[u8], error: String) -> String {
    format!("{error}\n  source: {}", document.escape_ascii())
}
