//! The program `jobtext` over stop names, run as `./stops` runs it. The second
//! program's own rules answer in the place of the packs program.

use second::cdtext_requests::serve;
use std::fs;
use std::io::Write;
use std::path::PathBuf;
use std::process::{Command, Output, Stdio};
use std::thread;

fn run(words: &[&str], input: &[u8]) -> Output {
    let mut child = Command::new(env!("CARGO_BIN_EXE_jobtext"))
        .args(words)
        .stdin(Stdio::piped())
        .stdout(Stdio::piped())
        .stderr(Stdio::piped())
        .spawn()
        .expect("the program");
    let stdin = child.stdin.take();
    thread::scope(|scope| {
        // A program that ends early reads no more.
        scope.spawn(move || stdin.map(|mut stdin| stdin.write_all(input)));
        child.wait_with_output().expect("its output")
    })
}

/// A pipe of `jobtext ASK`, the answer and `jobtext GET ..`: the last output.
fn piped(ask: &str, get: &[&str], input: &[u8]) -> Output {
    let request = run(&[ask], input);
    assert!(request.status.success(), "{ask}: {request:?}");
    let mut answer = Vec::new();
    serve(request.stdout.as_slice(), &mut answer).expect("memory");
    run(get, &answer)
}

/// What a run says that writes nothing and exits with a code.
fn told(output: Output, code: i32) -> String {
    assert!(output.stdout.is_empty(), "{output:?}");
    assert_eq!(output.status.code(), Some(code), "{output:?}");
    String::from_utf8(output.stderr).expect("text")
}

#[test]
fn names_go_there_and_back() {
    let names = b"Depot, north\nMill\nFarm 7 (two tanks)\n";
    let hex = piped("ask-packs", &["packs"], names).stdout;
    let text = String::from_utf8(hex.clone()).expect("text");
    assert!(text.lines().all(|line| line.len() == 3 * 18 - 1));
    assert_eq!(text.lines().count(), 4 + 3);
    assert!(text.starts_with("80 01 00 00 44 65 70 6F 74 2C 20 6E 6F 72 74 68 23 50\n"));
    let back = piped("ask-names", &["names"], &hex);
    assert_eq!(back.stdout, names);
    assert_eq!(back.status.code(), Some(0));
}

#[test]
fn loose_input_is_taken() {
    let hex = piped("ask-packs", &["packs"], b"Depot\r\nMill").stdout;
    let loose = String::from_utf8(hex).expect("text").to_lowercase();
    let loose = format!("\n{}\n", loose.replace('\n', "\r\n\n"));
    let back = piped("ask-names", &["names"], loose.as_bytes());
    assert_eq!(back.stdout, b"Depot\nMill\n");
}

/// A refusal goes to standard error, with its reason where the list is given.
#[test]
fn refusals_are_told() {
    let list = PathBuf::from(env!("CARGO_TARGET_TMPDIR")).join("refused.names");
    let list_name = list.to_str().expect("a path");
    let packs = |names: &[u8]| {
        fs::write(&list, names).expect("a file");
        let plain = told(piped("ask-packs", &["packs"], names), 1);
        let looked_up = told(piped("ask-packs", &["packs", list_name], names), 1);
        (plain, looked_up)
    };
    let all =
        "refused 17: there must be 1 to 99 names, each of 1 to 160 characters from 20h to 7Eh\n";
    for (names, reason) in [
        ("", "no names; a list has 1 to 99"),
        ("A\n\n", "line 2: empty; a name has at least one character"),
        (
            "A\nB\nMol\u{e9}\n",
            "line 3: character 4 is C3h; a name has characters from 20h to 7Eh only",
        ),
    ] {
        let expected = (all.to_string(), format!("refused 17: {reason}\n"));
        assert_eq!(packs(names.as_bytes()), expected);
    }
    let long = "a rather long name of a stop, of 50 characters ...\n".repeat(60);
    let many = "refused 19: the names need more than 255 packs\n".to_string();
    assert_eq!(packs(long.as_bytes()), (many.clone(), many));
    let names = told(piped("ask-names", &["names"], b"80 01\n"), 1);
    assert_eq!(
        names,
        "refused 18: these bytes are not the packs of any names\n"
    );
}

#[test]
fn faults_are_told() {
    let fault = |word: &str, input: &[u8]| told(run(&[word], input), 2);
    let long = fault("ask-packs", &vec![b'A'; 40_000]);
    assert!(
        long.contains("40001 bytes") && long.contains("32768"),
        "{long}"
    );
    let zero = fault("ask-packs", b"Depot\nMill\0Farm\n");
    assert!(zero.starts_with("line 2: character 5 is 00h;"), "{zero}");
    let bad = fault("ask-names", b"80 01\n80 xx\n");
    assert!(bad.starts_with("line 2:"), "{bad}");
    assert!(!fault("packs", &[]).is_empty());
    assert!(!fault("names", &[0, 0, 0]).is_empty());
    let none = told(run(&["packs", "no-such-list"], &[17, 0, 0]), 2);
    assert!(none.contains("no-such-list"), "{none}");
    for words in [
        &["packs", "a", "b"][..],
        &["names", "a"],
        &["ask-packs", "a"],
        &[],
    ] {
        assert!(told(run(words, &[]), 2).starts_with("usage: jobtext blocks"));
    }
}

/// What can't be written is told, also where it ends without a line feed.
#[test]
fn a_full_disk_is_told() {
    for (word, input) in [
        ("blocks", &b"good\n"[..]),
        ("text", &[0; 512]),
        ("ask-packs", b"A\n"),
    ] {
        let Ok(full) = fs::OpenOptions::new().write(true).open("/dev/full") else {
            return;
        };
        let list = PathBuf::from(env!("CARGO_TARGET_TMPDIR")).join(format!("full.{word}"));
        fs::write(&list, input).expect("a file");
        let output = Command::new(env!("CARGO_BIN_EXE_jobtext"))
            .arg(word)
            .stdin(fs::File::open(&list).expect("a file"))
            .stdout(full)
            .output()
            .expect("the program");
        let said = String::from_utf8(output.stderr).expect("text");
        assert!(
            said.starts_with("the output could not be written"),
            "{said}"
        );
        assert!(!output.status.success());
    }
}
