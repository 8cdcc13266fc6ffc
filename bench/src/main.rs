//! What bench/run and bench/instructions measure with.
#[path = "../../tests/product/src/binding.rs"]
mod binding;
mod formatters;
mod session;
mod text;

use std::env;
use std::fs;
use std::io::{self, Write};
use std::process::ExitCode;

const USAGE: &str = "usage: bench formatters PROGRAM  compare the product and its program with other formatters
       bench text BYTES          write so many bytes of filled words
       bench whole FILE          format a file through C in one block, with rooms of 65,536 bytes";

fn main() -> ExitCode {
    let words: Vec<String> = env::args().skip(1).collect();
    let words: Vec<&str> = words.iter().map(String::as_str).collect();
    let done = match words.as_slice() {
        ["formatters", program] => formatters::compare(program),
        ["text", bytes] => bytes.parse().map_err(io::Error::other).and_then(write),
        ["whole", file] => fs::read(file).map(|source| session::session(&source, source.len(), 65_536).is_some()),
        _ => Err(io::Error::other(USAGE)),
    };
    match done {
        Ok(true) => ExitCode::SUCCESS,
        Ok(false) => ExitCode::FAILURE,
        Err(error) => {
            eprintln!("bench: {error}");
            ExitCode::from(2)
        }
    }
}

fn write(size: usize) -> io::Result<bool> {
    io::stdout().write_all(&text::plain(size)).map(|()| true)
}
