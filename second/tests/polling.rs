//! Polled jobs written by hand from document 02, Ask 1: the commands that come
//! and what the panel shows.

mod common;

use common::{counted, printed, tao_with_immed, watched, POLL};
use second::commands::{
    close_track_session, request_sense, synchronize_cache, test_unit_ready, Bytes,
};
use second::hex::plain;
use second::units::TrackNumber;

/// TAO, one track of 300 with Immed. 35h: one round. 5Bh function 1: not
/// ready, a busy 03h, half done; then the end. 5Bh function 2: FFFFh, the end.
const TAO_JOB: &str = "\
order tao immed data 300
good profile 0009
good disc blank
good track nwa 0 free 300000
21 x good
good
good progress 0000
good
failed 02 04 08
busy
good progress 8000
good
good progress 0000
good
good
good progress FFFF
good
good progress 0000
";

/// 26 commands and 11 polls.
fn commands_of_tao() -> String {
    let track_polls = format!("{POLL}03 00 00 00 12 00\n{POLL}");
    tao_with_immed("", &track_polls, &POLL.repeat(2)) + "done 37\n"
}

const TAO_CLOSING: &str = "\
busy: SYNCHRONIZE CACHE, track 1 of 1
busy: TEST UNIT READY, 0.0 %
busy: REQUEST SENSE, 0.0 %
busy: CLOSE TRACK SESSION, track 1 of 1
busy: TEST UNIT READY, 0.0 %
busy: REQUEST SENSE, 0.0 %
busy: REQUEST SENSE, 0.0 %
busy: TEST UNIT READY, 50.0 %
busy: REQUEST SENSE, 50.0 %
busy: CLOSE TRACK SESSION, session
busy: TEST UNIT READY, 0.0 %
busy: REQUEST SENSE, 0.0 %
busy: TEST UNIT READY, 99.9 %
busy: REQUEST SENSE, 99.9 %
finished, commands given: 37
";

/// SAO, two audio tracks of 300 with Immed; 35h is polled in two rounds.
const SAO_JOB: &str = "\
order sao protect immed audio 300 audio 300
good profile 000A
good disc blank
good track nwa 0 free 600
12 x good
39 x good
good
good progress 0001
good
good progress 0000
";

#[test]
fn tao_commands() {
    assert_eq!(printed(TAO_JOB), commands_of_tao());
}

#[test]
fn tao_on_the_panel() {
    let mut expected = "idle\n\
         busy: GET CONFIGURATION\n\
         busy: READ DISC INFORMATION\n\
         busy: READ TRACK INFORMATION, track 1 of 1\n\
         busy: MODE SELECT, track 1 of 1\n"
        .to_string();
    for write in 0..19 {
        expected += &format!("busy: WRITE, track 1 of 1, {} of 300 blocks\n", 16 * write);
    }
    expected += TAO_CLOSING;
    assert_eq!(watched(TAO_JOB), expected);
}

/// 16 + 19 + 19 commands and 4 polls; no 5Bh.
#[test]
fn sao_commands() {
    let printed = printed(SAO_JOB);
    let lines: Vec<&str> = printed.lines().collect();
    assert_eq!(lines[3], "55 10 00 00 00 00 00 00 3C 00");
    assert_eq!(lines[4], "5D 00 00 00 00 00 00 00 28 00");
    assert_eq!(lines[5], "2A 00 FF FF FF 6A 00 00 10 00");
    assert_eq!(lines[14], "2A 00 FF FF FF FA 00 00 06 00");
    assert_eq!(lines[15], "2A 00 00 00 00 00 00 00 10 00");
    assert_eq!(lines[34], "2A 00 00 00 01 2C 00 00 10 00");
    assert_eq!(lines[52], "2A 00 00 00 02 4C 00 00 0C 00");
    let closing = [
        "35 02 00 00 00 00 00 00 00 00",
        "00 00 00 00 00 00",
        "03 00 00 00 12 00",
        "00 00 00 00 00 00",
        "03 00 00 00 12 00",
        "done 58",
    ];
    assert_eq!(lines[53..], closing);
}

#[test]
fn sao_on_the_panel() {
    let watched = watched(SAO_JOB);
    let lines: Vec<&str> = watched.lines().collect();
    assert_eq!(lines[3], "busy: READ TRACK INFORMATION, track 1 of 2");
    assert_eq!(lines[4], "busy: MODE SELECT, track 1 of 2");
    assert_eq!(lines[5], "busy: SEND CUE SHEET");
    assert_eq!(lines[6], "busy: WRITE, pause, 0 of 150 blocks");
    assert_eq!(lines[15], "busy: WRITE, pause, 144 of 150 blocks");
    assert_eq!(lines[16], "busy: WRITE, track 1 of 2, 0 of 300 blocks");
    assert_eq!(lines[53], "busy: WRITE, track 2 of 2, 288 of 300 blocks");
    let closing = [
        "busy: SYNCHRONIZE CACHE, track 2 of 2",
        "busy: TEST UNIT READY, 0.0 %",
        "busy: REQUEST SENSE, 0.0 %",
        "busy: TEST UNIT READY, 0.0 %",
        "busy: REQUEST SENSE, 0.0 %",
        "finished, commands given: 58",
    ];
    assert_eq!(lines[54..], closing);
}

/// The latest progress stays over the next 00h and a busy 03h; a good 03h
/// alone changes it, a failed 00h's or a busy 03h's own bytes don't.
#[test]
fn the_fraction_keeps_its_value() {
    let before = "order sao immed data 300\ngood profile 0009\ngood disc blank\n\
                  good track nwa 0 free 300\n32 x good\n";
    let noisy = "failed raw 70 00 02 00 00 00 00 0A 00 00 00 00 04 08 00 80 FF FF\n";
    let polls = format!("good\ngood progress C000\n{noisy}{noisy}good progress 4000\ngood\n");
    let watched = watched(&format!("{before}{polls}"));
    let lines: Vec<&str> = watched.lines().skip(37).collect();
    let expected = [
        "busy: REQUEST SENSE, 0.0 %",
        "busy: TEST UNIT READY, 75.0 %",
        "busy: REQUEST SENSE, 75.0 %",
        "busy: REQUEST SENSE, 75.0 %",
        "busy: TEST UNIT READY, 25.0 %",
        "busy: REQUEST SENSE, 25.0 %",
        "waiting, commands given: 42",
    ];
    assert_eq!(lines, expected);
}

/// Commands that are no polls: 4n + 3 + W in TAO, 16 + W in SAO, however long
/// the pollings are.
#[test]
fn the_count_excludes_polls() {
    for (job, count) in [(TAO_JOB, 4 + 3 + 19), (SAO_JOB, 16 + 38)] {
        for rounds in [0, 1, 7] {
            let more = "good\ngood progress 0100\n".repeat(rounds);
            let (start, last_round) = job.split_at(job.len() - "good\ngood progress 0000\n".len());
            let (commands, _) = counted(&format!("{start}{more}{last_round}"));
            assert_eq!(commands, count);
        }
    }
}

/// Without the flag nothing is polled, and no bit of Immed is set.
#[test]
fn without_the_flag() {
    let job = "order tao data 300\ngood profile 0009\ngood disc blank\n\
               good track nwa 0 free 300000\n23 x good\n";
    let unpolled: String = commands_of_tao()
        .lines()
        .filter(|line| line.split(' ').count() == 10)
        .map(|line| {
            line.replacen("35 02", "35 00", 1)
                .replacen("5B 01", "5B 00", 1)
                + "\n"
        })
        .collect();
    assert_eq!(printed(job), format!("{unpolled}done 26\n"));
}

/// Ask 1: bit 1 of byte 1 in 35h, bit 0 of byte 1 in 5Bh; six bytes each in
/// 00h and 03h, 12h in byte 4 of 03h.
#[test]
fn bytes_of_the_commands() {
    let close = |function, track| {
        close_track_session(function, TrackNumber(track), true).expect("a function")
    };
    let vectors: [(Bytes, &str); 5] = [
        (synchronize_cache(true), "35 02 00 00 00 00 00 00 00 00"),
        (close(1, 0xFF), "5B 01 01 00 00 FF 00 00 00 00"),
        (close(2, 0), "5B 01 02 00 00 00 00 00 00 00"),
        (test_unit_ready(), "00 00 00 00 00 00"),
        (request_sense(), "03 00 00 00 12 00"),
    ];
    for (bytes, expected) in vectors {
        assert_eq!(plain(&bytes), expected);
    }
}
