//! The CD-TEXT program itself, run as the bench runs it.

use second::cdtext_forge::{packs_of, run_of_lengths};
use second::cdtext_requests::{Operation, Request};
use std::io::Write;
use std::process::{Command, Stdio};
use std::thread;

/// What the program writes; it may end before all is read.
fn answered(input: &[u8]) -> Vec<u8> {
    let mut child = Command::new(env!("CARGO_BIN_EXE_cdtext"))
        .stdin(Stdio::piped())
        .stdout(Stdio::piped())
        .stderr(Stdio::null())
        .spawn()
        .expect("the program");
    let stdin = child.stdin.take();
    let output = thread::scope(|scope| {
        scope.spawn(move || stdin.map(|mut stdin| stdin.write_all(input)));
        child.wait_with_output().expect("its output")
    });
    output.stdout
}

#[test]
fn requests_are_answered() {
    let mut requests = Vec::new();
    for length in 0..=161 {
        let run = run_of_lengths(&[length, 7]);
        for (operation, payload) in [
            (Operation::MakePacks, run.clone()),
            (Operation::ReadPacks, packs_of(&run)),
            (Operation::CheckBytes, run),
        ] {
            requests.push(Request::new(operation, 400, payload).expect("a request"));
        }
    }
    let bytes: Vec<u8> = requests.iter().flat_map(Request::bytes).collect();
    let answers: Vec<u8> = requests.iter().flat_map(Request::answer).collect();
    assert!(answered(&bytes) == answers);
    assert!(answered(&[]).is_empty());
}

/// A request that is cut short ends the program without an answer to it.
#[test]
fn a_broken_request_ends_the_program() {
    assert_eq!(
        answered(&[3, 0, 0, 0, 0, 3, 0, 0, 0, 2, 1]),
        [0, 0xFF, 0xFF]
    );
    assert!(answered(&[4, 0, 0, 0, 0, 3, 0, 0, 0, 0]).is_empty());
}
