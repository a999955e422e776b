//! The watch program itself, run as the panel runs it.

use std::io::{BufRead, BufReader, Write};
use std::process::{Command, Stdio};
use text::jobs::blocks_of;

/// A line comes after each block, before the next one is there, and `idle`
/// comes before all.
#[test]
fn a_line_a_block() {
    let mut child = Command::new(env!("CARGO_BIN_EXE_watch"))
        .stdin(Stdio::piped())
        .stdout(Stdio::piped())
        .spawn()
        .expect("the watch program");
    let mut stdin = child.stdin.take().expect("its input");
    let stdout = child.stdout.take().expect("its output");
    let mut lines = BufReader::new(stdout).lines();
    let mut next = || lines.next().map(|line| line.expect("reading"));
    assert_eq!(next().as_deref(), Some("idle"));
    for (block, line) in [
        ("order tao immed data 300\n", "busy: GET CONFIGURATION"),
        ("good profile 0009\n", "busy: READ DISC INFORMATION"),
        ("busy\n", "busy: READ DISC INFORMATION"),
    ] {
        let bytes = blocks_of(block).expect("a block");
        stdin.write_all(&bytes).expect("writing");
        stdin.flush().expect("writing");
        assert_eq!(next().as_deref(), Some(line));
    }
    drop(stdin);
    assert_eq!(next().as_deref(), Some("waiting, commands given: 3"));
    assert_eq!(next(), None);
    assert!(child.wait().expect("its end").success());
}
