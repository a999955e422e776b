//! The print program itself, run as the bench runs it.

use std::io::{Read, Write};
use std::process::{Command, Stdio};
use text::jobs::blocks_of;

fn run(input: &[u8]) -> String {
    let mut child = Command::new(env!("CARGO_BIN_EXE_print"))
        .stdin(Stdio::piped())
        .stdout(Stdio::piped())
        .spawn()
        .expect("the print program");
    // The input is short, so it goes in whole before the output is read.
    let mut stdin = child.stdin.take().expect("its input");
    stdin.write_all(input).expect("writing");
    drop(stdin);
    let mut output = String::new();
    let mut stdout = child.stdout.take().expect("its output");
    stdout.read_to_string(&mut output).expect("reading");
    assert!(child.wait().expect("its end").success());
    output
}

/// Bench sheet: the whole output for that first order on a finalized disc.
#[test]
fn bench_print() {
    let job = "order sao data 300\ngood profile 0009\ngood disc finalized\n\
               good track nwa 0 free 300000\n";
    let expected = "46 00 00 00 00 00 00 00 08 00\n\
                    51 00 00 00 00 00 00 00 22 00\n\
                    52 01 00 00 00 FF 00 00 30 00\n\
                    stop 6 3\n";
    assert_eq!(run(&blocks_of(job).expect("a valid job")), expected);
}

#[test]
fn no_input() {
    assert_eq!(run(&[]), "stop 1 0\n");
}
