//! Answers binary requests over CD-TEXT packs from standard input until it
//! ends (the form stands at the top of `src/cdtext_requests.rs`). A broken
//! request ends the program without an answer to it.

use second::cdtext_requests::serve;
use std::io::{stdin, stdout, BufReader, BufWriter};
use std::process::ExitCode;

fn main() -> ExitCode {
    let input = BufReader::with_capacity(1 << 16, stdin().lock());
    let output = BufWriter::with_capacity(1 << 16, stdout().lock());
    match serve(input, output) {
        Ok(()) => ExitCode::SUCCESS,
        Err(error) => {
            eprintln!("{error}");
            ExitCode::FAILURE
        }
    }
}
