//! Requests in text from standard input, one a line, to the binary form:
//!
//! - `pack` writes the binary form; comments (`#`) and blank lines are passed
//!   over, and any other line that is no request is an error
//! - `pack --kept` writes the lines that are requests, as they stand

use std::io::{self, stdin, stdout, Write};
use std::process::ExitCode;
use trials::packed::{kept, pack_text};

const USAGE: &str = "usage: pack < requests.txt > requests.bin
       pack --kept < requests.txt > kept.txt";

fn main() -> ExitCode {
    let words: Vec<String> = std::env::args().skip(1).collect();
    let words: Vec<&str> = words.iter().map(String::as_str).collect();
    match run(&words) {
        Ok(()) => ExitCode::SUCCESS,
        Err(error) => {
            eprintln!("{error}");
            ExitCode::FAILURE
        }
    }
}

fn run(words: &[&str]) -> Result<(), String> {
    let fault = |error: io::Error| error.to_string();
    let bytes = match words {
        [] => pack_text(&io::read_to_string(stdin()).map_err(fault)?)?,
        ["--kept"] => kept(&io::read_to_string(stdin()).map_err(fault)?)
            .iter()
            .flat_map(|line| [line.as_bytes(), b"\n"].concat())
            .collect(),
        _ => return Err(USAGE.to_string()),
    };
    stdout().write_all(&bytes).map_err(fault)
}
