//! The programs `jobs` and `compare`, run as the gate runs them. What another
//! program would answer stands in a file, and `cat` or `sh` gives it.

use second::cdtext_requests::{serve, Request};
use second::rng::Rng;
use std::fs;
use std::path::PathBuf;
use std::process::Command;
use text::jobs::blocks_of;
use trials::cdtext_corners::corners;
use trials::cdtext_random;

/// A folder of its own for a test, in which `compare` runs: the files have
/// short names, with no space in them.
struct Folder(PathBuf);

impl Folder {
    fn new(name: &str) -> Folder {
        let folder = PathBuf::from(env!("CARGO_TARGET_TMPDIR")).join(name);
        let _ = fs::remove_dir_all(&folder);
        fs::create_dir_all(folder.join("jobs")).expect("a folder");
        Folder(folder)
    }

    fn with(self, name: &str, bytes: &[u8]) -> Folder {
        fs::write(self.0.join(name), bytes).expect("a file");
        self
    }

    /// The last line of a comparison, and its exit code.
    fn compared(&self, words: &[&str]) -> (String, Option<i32>) {
        let (said, code) = self.said(words);
        (said.lines().last().unwrap_or("").to_string(), code)
    }

    fn said(&self, words: &[&str]) -> (String, Option<i32>) {
        let output = Command::new(env!("CARGO_BIN_EXE_compare"))
            .args(words)
            .current_dir(&self.0)
            .output()
            .expect("the program");
        let said = String::from_utf8(output.stdout).expect("text");
        (said, output.status.code())
    }
}

fn bytes_of(requests: &[Request]) -> Vec<u8> {
    requests.iter().flat_map(Request::bytes).collect()
}

fn answers_to(requests: &[Request]) -> Vec<u8> {
    requests.iter().flat_map(Request::answer).collect()
}

fn corner_requests() -> Vec<Request> {
    corners().into_iter().map(|corner| corner.request).collect()
}

fn random_requests(seed: u64, count: usize) -> Vec<Request> {
    let mut rng = Rng::new(seed);
    (0..count)
        .map(|_| cdtext_random::request(&mut rng))
        .collect()
}

// ---- requests over CD-TEXT ----

#[test]
fn jobs_writes_the_requests() {
    let written = |words: &[&str]| {
        let output = Command::new(env!("CARGO_BIN_EXE_jobs"))
            .args(words)
            .output();
        output.expect("the program").stdout
    };
    assert!(written(&["cdtext-corners"]) == bytes_of(&corner_requests()));
    let random = written(&["cdtext", "3", "200"]);
    assert!(random == bytes_of(&random_requests(3, 200)));
}

/// The `cdtext` program is this function from standard input to standard output.
#[test]
fn the_second_program_answers_the_requests() {
    for requests in [corner_requests(), random_requests(4, 500)] {
        let mut answers = Vec::new();
        serve(bytes_of(&requests).as_slice(), &mut answers).expect("memory");
        assert!(answers == answers_to(&requests));
    }
}

#[test]
fn the_same_answers_agree() {
    let requests = [corner_requests(), random_requests(5, 1_000)].concat();
    let folder = Folder::new("agree")
        .with("requests", &bytes_of(&requests))
        .with("answers", &answers_to(&requests));
    let last = format!("{} requests, 0 differences", requests.len());
    let compared = folder.compared(&["--cdtext", "cat answers", "requests"]);
    assert_eq!(compared, (last, Some(0)));
}

/// `cat` answers each request with the request itself.
#[test]
fn a_difference_is_told() {
    let folder = Folder::new("difference").with("requests", &bytes_of(&random_requests(6, 20)));
    let compared = |program: &str, file: &str| folder.compared(&["--cdtext", program, file]);
    let last = "1 requests, 1 difference".to_string();
    assert_eq!(compared("cat", "requests"), (last.clone(), Some(1)));
    assert_eq!(compared("true", "requests"), (last, Some(1)));
    assert_eq!(compared("no-such-program", "requests").1, Some(2));
    assert_eq!(compared("cat", "no-such-file").1, Some(2));
}

#[test]
fn a_broken_file_is_told() {
    let mut bytes = bytes_of(&random_requests(7, 3));
    bytes.pop();
    let folder = Folder::new("broken").with("requests", &bytes);
    let compared = folder.compared(&["--cdtext", "cat", "requests"]);
    assert_eq!(compared.1, Some(2));
}

// ---- how a program ends ----

const ENDS: [(&str, &str); 2] = [
    ("exit 3\n", "exit status: 3"),
    ("kill -9 $$\n", "signal: 9"),
];

/// The right answers do not help a program that ends badly.
#[test]
fn the_end_over_requests_is_told() {
    let requests = random_requests(8, 5);
    let folder = Folder::new("ends")
        .with("requests", &bytes_of(&requests))
        .with("answers", &answers_to(&requests))
        .with("lines", b"time 0\ntime x\n")
        .with("same", b"time 0\n");
    for (end, told) in ENDS {
        let ends = |first: &str| format!("cat >rest; cat {first}; {end}").into_bytes();
        fs::write(folder.0.join("cdtext"), ends("answers")).expect("a file");
        let (said, code) = folder.said(&["--cdtext", "sh cdtext", "requests"]);
        assert!(said.contains(told), "{said}");
        assert!(said.ends_with("5 requests, 1 difference\n"), "{said}");
        assert_eq!(code, Some(1));
        fs::write(folder.0.join("layouts"), ends("answer")).expect("a file");
        let answer = second::layouts::answer("time 0");
        fs::write(folder.0.join("answer"), format!("{answer}\n")).expect("a file");
        for (words, last) in [
            (
                ["--requests", "sh layouts", "lines"].as_slice(),
                "1 requests",
            ),
            (&["--lines", "sh layouts", "cat answer", "same"], "1 lines"),
            (&["--lines", "cat answer", "sh layouts", "same"], "1 lines"),
        ] {
            let (said, code) = folder.said(words);
            assert!(said.contains(told), "{said}");
            assert!(said.ends_with(&format!("{last}, 1 difference\n")), "{said}");
            assert_eq!(code, Some(1));
        }
    }
}

#[test]
fn the_end_over_jobs_is_told() {
    let folder = Folder::new("jobs")
        .with(
            "jobs/one.bin",
            &blocks_of("order tao data 300\n").expect("a job"),
        )
        .with("printed", b"waiting 1\n");
    let last = "1 jobs, 0 differences".to_string();
    let same = folder.compared(&["cat printed", "cat printed", "jobs"]);
    assert_eq!(same, (last, Some(0)));
    for (end, told) in ENDS {
        fs::write(folder.0.join("print"), format!("cat printed; {end}")).expect("a file");
        for programs in [
            ["sh print", "cat printed"],
            ["cat printed", "sh print"],
            ["sh print"; 2],
        ] {
            let (said, code) = folder.said(&[programs[0], programs[1], "jobs"]);
            assert!(said.contains(told), "{said}");
            assert!(said.ends_with("1 jobs, 1 difference\n"), "{said}");
            assert_eq!(code, Some(1));
        }
    }
    let (said, code) = folder.said(&["echo none", "echo none", "jobs"]);
    assert!(said.contains("last line") && code == Some(1), "{said}");
}
