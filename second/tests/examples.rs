//! The jobs in the examples folder print and show what stands beside them.

use second::print::print;
use second::watch::watch;
use std::fs;
use std::path::{Path, PathBuf};
use text::jobs::{blocks_of, text_of};

fn jobs() -> Vec<PathBuf> {
    let folder = Path::new(env!("CARGO_MANIFEST_DIR")).join("../examples");
    let entries = fs::read_dir(folder).expect("the examples folder");
    let paths = entries.map(|entry| entry.expect("an entry").path());
    paths
        .filter(|path| path.extension().is_some_and(|extension| extension == "job"))
        .collect()
}

#[test]
fn examples_give_what_is_expected() {
    let jobs = jobs();
    assert!(jobs.len() >= 10);
    for path in jobs {
        let text = fs::read_to_string(&path).expect("a job");
        let blocks = blocks_of(&text).expect("a valid job");
        let mut output = Vec::new();
        print(blocks.as_slice(), &mut output).expect("writing to memory");
        let expected = fs::read(path.with_extension("expected")).expect("its output");
        assert!(output == expected, "{}", path.display());
        let mut shown = Vec::new();
        watch(blocks.as_slice(), &mut shown).expect("writing to memory");
        let expected = fs::read(path.with_extension("watch")).expect("its panel");
        assert!(shown == expected, "{}", path.display());
    }
}

/// Text and blocks of an example name the same job, comments apart.
#[test]
fn examples_read_back() {
    for path in jobs() {
        let text = fs::read_to_string(&path).expect("a job");
        let blocks = blocks_of(&text).expect("a valid job");
        assert_eq!(blocks_of(&text_of(&blocks)).expect("a valid job"), blocks);
    }
}
