//! What the tests of polled and of erasing jobs share.

use second::print::print;
use second::watch::watch;
use text::jobs::blocks_of;

/// TAO of one track of 300 from address 0, ahead of its 35h: 52h, 55h; then 18
/// WRITEs of 16 and one of 12.
const TAO_TRACK: &str = "\
52 01 00 00 00 FF 00 00 30 00
55 10 00 00 00 00 00 00 3C 00
2A 00 00 00 00 00 00 00 10 00
2A 00 00 00 00 10 00 00 10 00
2A 00 00 00 00 20 00 00 10 00
2A 00 00 00 00 30 00 00 10 00
2A 00 00 00 00 40 00 00 10 00
2A 00 00 00 00 50 00 00 10 00
2A 00 00 00 00 60 00 00 10 00
2A 00 00 00 00 70 00 00 10 00
2A 00 00 00 00 80 00 00 10 00
2A 00 00 00 00 90 00 00 10 00
2A 00 00 00 00 A0 00 00 10 00
2A 00 00 00 00 B0 00 00 10 00
2A 00 00 00 00 C0 00 00 10 00
2A 00 00 00 00 D0 00 00 10 00
2A 00 00 00 00 E0 00 00 10 00
2A 00 00 00 00 F0 00 00 10 00
2A 00 00 00 01 00 00 00 10 00
2A 00 00 00 01 10 00 00 10 00
2A 00 00 00 01 20 00 00 0C 00
";

/// 00h and 03h.
pub const POLL: &str = "\
00 00 00 00 00 00
03 00 00 00 12 00
";

/// The commands of that track with Immed: 46h and 51h, the erasing if any, the
/// track, 35h with 02h and 5Bh with 01h in byte 1. 35h has one poll of each
/// kind; those of the two 5Bh are given.
pub fn tao_with_immed(erasing: &str, track_polls: &str, session_polls: &str) -> String {
    format!(
        "46 00 00 00 00 00 00 00 08 00\n\
         51 00 00 00 00 00 00 00 22 00\n\
         {erasing}\
         {TAO_TRACK}\
         35 02 00 00 00 00 00 00 00 00\n{POLL}\
         5B 01 01 00 00 FF 00 00 00 00\n{track_polls}\
         5B 01 02 00 00 00 00 00 00 00\n{session_polls}"
    )
}

pub fn printed(text: &str) -> String {
    let mut output = Vec::new();
    print(blocks_of(text).expect("a job").as_slice(), &mut output).expect("memory");
    String::from_utf8(output).expect("text")
}

pub fn watched(text: &str) -> String {
    let mut output = Vec::new();
    watch(blocks_of(text).expect("a job").as_slice(), &mut output).expect("memory");
    String::from_utf8(output).expect("text")
}

/// The commands of a job that ends as done: how many are no polls, and how
/// many are. Its last line counts both.
pub fn counted(text: &str) -> (usize, usize) {
    let printed = printed(text);
    let lines: Vec<&str> = printed.lines().collect();
    let (last, given) = lines.split_last().expect("lines");
    assert_eq!(*last, format!("done {}", given.len()));
    let is_poll = |line: &&&str| line.split(' ').count() == 6;
    let polls = given.iter().filter(is_poll).count();
    (given.len() - polls, polls)
}
