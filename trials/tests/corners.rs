//! The corner jobs through both programs of the second program.

use second::print::print;
use second::watch::watch;
use trials::corners::corners;

fn watched(input: &[u8]) -> String {
    let mut output = Vec::new();
    watch(input, &mut output).unwrap();
    String::from_utf8(output).unwrap()
}

/// A line for `idle`, one for each of print's lines, ended alike.
#[test]
fn corners_agree_with_print() {
    for corner in corners() {
        let mut printed = Vec::new();
        print(corner.bytes.as_slice(), &mut printed).unwrap();
        let printed = String::from_utf8(printed).unwrap();
        let watched = watched(&corner.bytes);
        assert_eq!(watched.lines().count(), printed.lines().count() + 1);
        let words: Vec<&str> = printed.lines().last().unwrap().split(' ').collect();
        let (start, count) = match words[..] {
            ["done", count] => ("finished".to_string(), count),
            ["waiting", count] => ("waiting".to_string(), count),
            ["stop", number, count, ..] => (format!("stopped: {number}, "), count),
            _ => panic!("{}", corner.name),
        };
        let last = watched.lines().last().unwrap();
        assert!(last.starts_with(&start), "{}: {last}", corner.name);
        let count = format!(", commands given: {count}");
        assert!(last.ends_with(&count), "{}: {last}", corner.name);
    }
}
