//! Whether the conversion of addresses and times divides, takes remainders or
//! multiplies:
//!
//! - `conversion source CRATES` looks at the sources below the folder of crates
//! - `conversion machine` looks at a disassembly of the static library on
//!   standard input
//!
//! It prints what it finds; the exit status is 1 where that is anything.

use std::fs;
use std::io::{self, stdin};
use std::path::{Path, PathBuf};
use std::process::ExitCode;
use trials::conversion::{copied, in_machine_code, in_source, SOURCE};

const USAGE: &str = "usage: conversion source CRATES
       objdump -dr --no-show-raw-insn libconversion.a | conversion machine";

fn main() -> ExitCode {
    let words: Vec<String> = std::env::args().skip(1).collect();
    let words: Vec<&str> = words.iter().map(String::as_str).collect();
    let found = match words[..] {
        ["source", crates] => in_sources(Path::new(crates)),
        ["machine"] => io::read_to_string(stdin()).map(|text| in_machine_code(&text)),
        _ => Err(io::Error::other(USAGE)),
    };
    match found {
        Ok(faults) if faults.is_empty() => {
            println!("no division, no remainder and no multiplication");
            ExitCode::SUCCESS
        }
        Ok(faults) => {
            faults.iter().for_each(|fault| println!("{fault}"));
            ExitCode::FAILURE
        }
        Err(error) => {
            eprintln!("{error}");
            ExitCode::from(2)
        }
    }
}

/// The faults of the conversion's source and of every other one.
fn in_sources(crates: &Path) -> io::Result<Vec<String>> {
    let conversion = crates.join(SOURCE);
    let mut faults = in_source(&fs::read_to_string(&conversion)?);
    for source in sources_below(crates)? {
        if source != conversion {
            let found = copied(&fs::read_to_string(&source)?);
            let place = source.display();
            faults.extend(found.iter().map(|fault| format!("{place}: {fault}")));
        }
    }
    Ok(faults)
}

/// Every file of Rattle below a folder, but for what a check left in a crate's
/// out/.
fn sources_below(folder: &Path) -> io::Result<Vec<PathBuf>> {
    let mut found = vec![];
    for entry in fs::read_dir(folder)? {
        let path = entry?.path();
        if path.is_dir() && path.file_name().is_some_and(|n| n == "out") {
            continue;
        }
        if path.is_dir() {
            found.extend(sources_below(&path)?);
        } else if path.extension().is_some_and(|e| e == "rt") {
            found.push(path);
        }
    }
    Ok(found)
}
