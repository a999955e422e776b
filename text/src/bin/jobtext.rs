//! Jobs, and stop names for CD-TEXT, in plain text:
//!
//! - `jobtext blocks` turns a readable job into blocks
//! - `jobtext text` turns blocks into a readable job
//! - `jobtext ask-packs` turns stop names, one a line, into a request for
//!   packs, and `jobtext packs` its answer into hex, one pack a line
//! - `jobtext ask-names` turns packs in hex into a request for names, and
//!   `jobtext names` its answer into names, one a line
//!
//! Requests and answers are those of the `cdtext` program. A refusal is said on
//! standard error as `refused R` with what it means, and `packs LIST` looks in
//! the list of names for the reason of a 17; the exit code is 1 then, and
//! nothing is written. A fault in the input of these four, or in the words,
//! exits with 2.

use std::fs;
use std::io::{self, stdin, stdout, BufReader, BufWriter, Read, Write};
use std::process::ExitCode;
use text::jobs::{write_blocks, write_text};
use text::stops::{self, Fault};

const USAGE: &str = "usage: jobtext blocks < job.txt > job.bin
       jobtext text < job.bin > job.txt
       jobtext ask-packs < names.txt | cdtext | jobtext packs [names.txt] > packs.txt
       jobtext ask-names < packs.txt | cdtext | jobtext names > names.txt";

/// The number of the refusal whose reason stands in the list of names.
const NAMES_REFUSED: u8 = 17;

/// An exit code, and what is said on standard error.
type Failure = (u8, String);

fn main() -> ExitCode {
    let words: Vec<String> = std::env::args().skip(1).collect();
    let words: Vec<&str> = words.iter().map(String::as_str).collect();
    match run(&words) {
        Ok(()) => ExitCode::SUCCESS,
        Err((code, told)) => {
            eprintln!("{told}");
            ExitCode::from(code)
        }
    }
}

fn run(words: &[&str]) -> Result<(), Failure> {
    let job = |error: String| (1, error);
    match words {
        ["blocks"] => write_blocks(input(), output()).map_err(job),
        ["text"] => write_text(input(), output()).map_err(|error| job(error.to_string())),
        ["ask-packs"] => convert(|bytes| stops::packs_request(bytes).map_err(fault)),
        ["packs"] => convert(|bytes| stops::pack_lines(bytes).map_err(|fault| told(fault, None))),
        ["packs", list] => {
            let list = fs::read(list).map_err(|error| fault(format!("{list}: {error}")))?;
            convert(|bytes| stops::pack_lines(bytes).map_err(|fault| told(fault, Some(&list))))
        }
        ["ask-names"] => convert(|bytes| {
            let text = String::from_utf8_lossy(bytes);
            stops::names_request(&text).map_err(fault)
        }),
        ["names"] => convert(|bytes| stops::name_lines(bytes).map_err(|fault| told(fault, None))),
        _ => Err(fault(USAGE.to_string())),
    }
}

/// A fault in the input or in the words.
fn fault(told: String) -> Failure {
    (2, told)
}

/// What is said of an answer without text.
fn told(fault: Fault, list: Option<&[u8]>) -> Failure {
    match fault {
        Fault::NoAnswer(told) => (2, told),
        Fault::Refused(number) => {
            let listed = list.filter(|_| number == NAMES_REFUSED);
            let reason = listed.and_then(stops::why_refused);
            let reason = reason.unwrap_or(stops::meaning(number).to_string());
            (1, format!("refused {number}: {reason}"))
        }
    }
}

fn input() -> BufReader<io::StdinLock<'static>> {
    BufReader::with_capacity(1 << 16, stdin().lock())
}

fn output() -> BufWriter<Output> {
    BufWriter::with_capacity(1 << 16, Output(stdout().lock()))
}

/// Standard output; an error says that it is one of writing.
struct Output(io::StdoutLock<'static>);

impl Write for Output {
    fn write(&mut self, bytes: &[u8]) -> io::Result<usize> {
        self.0.write(bytes).map_err(unwritten)
    }

    fn flush(&mut self) -> io::Result<()> {
        self.0.flush().map_err(unwritten)
    }
}

fn unwritten(error: io::Error) -> io::Error {
    let told = format!("the output could not be written: {error}");
    io::Error::new(error.kind(), told)
}

/// Turns the whole input into the output.
fn convert(turn: impl Fn(&[u8]) -> Result<Vec<u8>, Failure>) -> Result<(), Failure> {
    let failed = |error: io::Error| fault(error.to_string());
    let mut bytes = Vec::new();
    stdin().lock().read_to_end(&mut bytes).map_err(failed)?;
    let text = turn(&bytes)?;
    let mut output = output();
    output.write_all(&text).map_err(failed)?;
    output.flush().map_err(failed)
}
