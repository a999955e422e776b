//! The stored vectors of the layouts and of CD-TEXT. Those of the layouts: their
//! binary form and their answers are those of their text.

use second::cdtext_requests::requests_in;
use second::layouts::answer;
use std::fs;
use std::path::{Path, PathBuf};
use trials::packed::{kept, pack_text};

fn stored_with(program: &str, name: &str) -> PathBuf {
    let folder = Path::new(env!("CARGO_MANIFEST_DIR")).join("../crates");
    folder.join(program).join(name)
}

fn stored(name: &str) -> PathBuf {
    stored_with("bench_layouts", name)
}

#[test]
fn binary_form_is_that_of_the_text() {
    let text = fs::read_to_string(stored("vectors.txt")).expect("the vectors");
    let packed = pack_text(&text).expect("valid vectors");
    assert!(packed == fs::read(stored("stdin")).expect("their binary form"));
}

#[test]
fn answers_are_ours() {
    let text = fs::read_to_string(stored("vectors.txt")).expect("the vectors");
    let answers = fs::read_to_string(stored("stdout")).expect("their answers");
    let requests = kept(&text);
    assert_eq!(requests.len(), answers.lines().count());
    for (request, stored) in requests.iter().zip(answers.lines()) {
        assert!(answer(request) == stored, "{request}");
    }
    assert!(answers.ends_with('\n'));
}

/// The three example packs of document 000 come first, then runs of titles made
/// into packs and read back, whole and damaged, and runs that are refused.
#[test]
fn cdtext_answers_are_ours() {
    let vectors = fs::read(stored_with("packs", "stdin")).expect("the vectors");
    let answers = fs::read(stored_with("packs", "stdout")).expect("their answers");
    let requests = requests_in(&vectors).expect("whole requests");
    let ours: Vec<u8> = requests
        .iter()
        .flat_map(|request| request.answer())
        .collect();
    assert!(ours == answers);
    assert_eq!(
        answers[..9],
        [0, 0x48, 0x65, 0, 0xC0, 0x20, 0, 0x11, 0x45],
        "the check bytes of document 000's packs"
    );
}
